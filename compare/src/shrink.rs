//! Smaller inputs that still show a difference of no class.
use compare::answers::{Change, Edit};
use oracle::{Fields, List, Record, Subs};

/// A smaller tag for which the test still holds: parts are left out, then bytes made simpler.
pub fn tag(tag: &[u8], test: &mut dyn FnMut(&[u8]) -> bool) -> Vec<u8> {
    let mut best = tag.to_vec();
    loop {
        let before = best.clone();
        bytes(&mut best, test);
        simpler(&mut best, test);
        if best == before {
            return best;
        }
    }
}

// leaves out parts, large ones first
fn bytes(best: &mut Vec<u8>, test: &mut dyn FnMut(&[u8]) -> bool) {
    let mut part = best.len().div_ceil(2);
    while part > 0 {
        let mut at = 0;
        while at + part <= best.len() {
            let mut less = best.clone();
            less.drain(at..at + part);
            if test(&less) {
                *best = less;
            } else {
                at += 1;
            }
        }
        part /= 2;
    }
}

// each byte as 0, as an A, or one less
fn simpler(best: &mut [u8], test: &mut dyn FnMut(&[u8]) -> bool) {
    for i in 0..best.len() {
        for to in [0, 0x41, best[i] / 2, best[i].saturating_sub(1)] {
            if to < best[i] {
                let was = best[i];
                best[i] = to;
                if test(best) {
                    break;
                }
                best[i] = was;
            }
        }
    }
}

/// A smaller list for which the test still holds.
pub fn list(list: &List, test: &mut dyn FnMut(&List) -> bool) -> List {
    let mut best = list.clone();
    'again: loop {
        for next in smaller(&best) {
            if test(&next) {
                best = next;
                continue 'again;
            }
        }
        return best;
    }
}

/// A smaller edit for which the test still holds: a smaller tag, then a smaller record.
pub fn edit(edit: &Edit<Record>, test: &mut dyn FnMut(&Edit<Record>) -> bool) -> Edit<Record> {
    let with = |tag: &[u8]| Edit { tag: tag.to_vec(), change: edit.change.clone() };
    let mut best = with(&tag(&edit.tag, &mut |less| test(&with(less))));
    'again: loop {
        for fields in smaller_change(&best.change) {
            let change = best.change.clone().map(|record| Record { fields, ..record });
            let next = Edit { tag: best.tag.clone(), change };
            if test(&next) {
                best = next;
                continue 'again;
            }
        }
        return best;
    }
}

fn smaller_change(change: &Change<Record>) -> Vec<Fields> {
    match change {
        Change::Replace(_, record) | Change::Append(record) => smaller_fields(&record.fields),
        Change::Remove(_) | Change::Lift(..) => Vec::new(),
    }
}

// lists that are smaller by one thing
fn smaller(list: &List) -> Vec<List> {
    let mut out = Vec::new();
    for records in smaller_records(&list.records) {
        out.push(List { records, ..list.clone() });
    }
    if list.padding > 0 {
        out.push(List { padding: 0, ..list.clone() });
        out.push(List { padding: list.padding / 2, ..list.clone() });
    }
    if list.unsynchronisation {
        out.push(List { unsynchronisation: false, ..list.clone() });
    }
    if list.file_altered {
        out.push(List { file_altered: false, ..list.clone() });
    }
    out
}

fn smaller_records(records: &[Record]) -> Vec<Vec<Record>> {
    let mut out = Vec::new();
    for i in 0..records.len() {
        let mut less = records.to_vec();
        less.remove(i);
        out.push(less);
    }
    for (i, record) in records.iter().enumerate() {
        for fields in smaller_fields(&record.fields) {
            let mut other = records.to_vec();
            other[i].fields = fields;
            out.push(other);
        }
    }
    out
}

fn smaller_fields(fields: &Fields) -> Vec<Fields> {
    match fields.clone() {
        Fields::Text { encoding, bytes } => {
            shorter(&bytes).into_iter().map(|bytes| Fields::Text { encoding, bytes }).collect()
        }
        Fields::Popularimeter { user, rating, counter } => {
            let mut out: Vec<Fields> =
                shorter(&user).into_iter().map(|user| Fields::Popularimeter { user, rating, counter }).collect();
            if counter > 0 {
                out.push(Fields::Popularimeter { user: user.clone(), rating, counter: counter / 2 });
            }
            if rating > 0 {
                out.push(Fields::Popularimeter { user, rating: 0, counter });
            }
            out
        }
        Fields::Table { frames, bytes, millis, bits_for_bytes, bits_for_millis, deviations } => {
            let table = |frames, bytes, millis, deviations| Fields::Table {
                frames,
                bytes,
                millis,
                bits_for_bytes,
                bits_for_millis,
                deviations,
            };
            let mut out: Vec<Fields> =
                shorter(&deviations).into_iter().map(|deviations| table(frames, bytes, millis, deviations)).collect();
            if (frames, bytes, millis) != (0, 0, 0) {
                out.push(table(0, 0, 0, deviations));
            }
            out
        }
        Fields::Chapter { element, times, subs } => {
            let mut out: Vec<Fields> = smaller_subs(&subs)
                .into_iter()
                .map(|subs| Fields::Chapter { element: element.clone(), times, subs })
                .collect();
            if !element.is_empty() || times != [0; 4] {
                out.push(Fields::Chapter { element: Vec::new(), times: [0; 4], subs });
            }
            out
        }
        Fields::Contents { element, top_level, ordered, children, subs } => {
            let contents = |element: &[u8], children, subs| Fields::Contents {
                element: element.to_vec(),
                top_level,
                ordered,
                children,
                subs,
            };
            let mut out: Vec<Fields> =
                smaller_subs(&subs).into_iter().map(|subs| contents(&element, children.clone(), subs)).collect();
            out.extend(shorter(&children).into_iter().map(|children| contents(&element, children, subs.clone())));
            if !element.is_empty() {
                out.push(contents(&[], children, subs));
            }
            out
        }
        Fields::Raw { body } => shorter(&body).into_iter().map(|body| Fields::Raw { body }).collect(),
    }
}

fn smaller_subs(subs: &Subs) -> Vec<Subs> {
    match subs {
        Subs::Records(records) => smaller_records(records).into_iter().map(Subs::Records).collect(),
        Subs::Run(run) => shorter(run).into_iter().map(Subs::Run).collect(),
    }
}

// without a part, from the half down to one
fn shorter<T: Clone>(items: &[T]) -> Vec<Vec<T>> {
    let mut out = Vec::new();
    let mut part = items.len();
    while part > 0 {
        for at in (0..=items.len() - part).step_by(part) {
            let mut less = items.to_vec();
            less.drain(at..at + part);
            out.push(less);
        }
        part /= 2;
    }
    out
}
