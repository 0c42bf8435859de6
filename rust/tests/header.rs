//! The conveniences of the C header, compiled as C99 and as C++.

mod common;

use common::{command, compile, folder, said, Language};
use std::path::PathBuf;
use streamvault::{sys, Refusal};

/// What a program of these sources prints in each language, where it ends well.
fn printed(name: &str, sources: &[&str]) -> [String; 2] {
    Language::ALL.map(|language| {
        let folder = folder(&format!("header-{name}-{language:?}"));
        let paths: Vec<PathBuf> = (0..sources.len()).map(|i| folder.join(format!("{i}.c"))).collect();
        for (path, source) in paths.iter().zip(sources) {
            std::fs::write(path, source).unwrap();
        }
        let program = folder.join("program");
        compile(language, &paths, &program);
        let (text, status) = said(&command(&program).output().unwrap());
        assert_eq!(status, 0, "{language:?}: {text}");
        text
    })
}

#[test]
fn the_header_may_be_included_twice_and_in_many_files() {
    let other = "#include \"streamvault.h\"\n#include \"streamvault.h\"\n";
    let main = "#include \"streamvault.h\"\nint main(void) { return (int)sv_header(NULL, 0, NULL, 0) - SV_NO_ROOM; }\n";
    printed("files", &[main, other]);
}

#[test]
fn numbers_have_their_meanings() {
    let code = r#"
        #include "streamvault.h"
        #include <stdio.h>

        int main(void)
        {
            for (uint32_t number = 0; number < 300; number++)
                printf("%u %s\n", (unsigned)number, sv_meaning(number));
            return 0;
        }
    "#;
    let meaning = |number| match number {
        0 => "accepted",
        sys::SV_END => "there is no further frame or popularimeter",
        _ => Refusal::from_number(number).map_or("a number that is none", Refusal::meaning),
    };
    let want: String = (0..300).map(|number| format!("{number} {}\n", meaning(number))).collect();
    for text in printed("meanings", &[code]) {
        assert_eq!(text, want);
    }
}

#[test]
fn the_version_is_that_of_the_package() {
    let code = r#"
        #include "streamvault.h"
        #include <stdio.h>

        int main(void)
        {
            printf("%d.%d.%d %s", SV_VERSION_MAJOR, SV_VERSION_MINOR, SV_VERSION_PATCH, SV_VERSION);
            return 0;
        }
    "#;
    let version = env!("CARGO_PKG_VERSION");
    for text in printed("version", &[code]) {
        assert_eq!(text, format!("{version} {version}"));
    }
}

#[test]
fn ids_are_numbers() {
    let code = r#"
        #include "streamvault.h"

        int main(void)
        {
            return !(sv_id("POPM") == 0x504F504D && sv_id("POP") == 0x504F50 && sv_id("") == 0 && sv_id("\xFF") == 0xFF);
        }
    "#;
    printed("ids", &[code]);
}

/// What adding answers: the number, the count, how much of the buffer is used.
#[test]
fn a_given_record_is_added_as_sv_add_does() {
    let code = r#"
        #include "streamvault.h"
        #include <inttypes.h>
        #include <stdio.h>
        #include <string.h>

        static uint64_t writer[SV_WRITER_WORDS];
        static uint8_t buffer[64];

        static void add(const sv_given *given)
        {
            uint64_t count = 77;
            uint32_t answer = sv_add_given(given, buffer, sizeof buffer, writer, &count);
            printf("%" PRIu32 " %" PRIu64 " %" PRIu64 "\n", answer, count, writer[SV_WRITER_USED]);
        }

        int main(void)
        {
            sv_given given = sv_given_of(SV_KIND_POPULARIMETER, "POPM");
            given.record[SV_POPULARIMETER_COUNTER] = 258;
            given.name = (const uint8_t *)"a";
            given.name_len = 1;
            add(&given);
            if (sv_begin(3, SV_MODE_OFF, 1, writer, SV_WRITER_WORDS) != 0)
                return 1;
            add(&given);
            if (memcmp(buffer, "POPM\0\0\0\5\0\0a\0\0\1\2", 15) != 0)
                return 2;
            given.name_len = 2;
            add(&given);
            given.name_len = 1;
            given.record[SV_RECORD_ID] = sv_id("TIT2");
            add(&given);
            given = sv_given_of(SV_KIND_TEXT, "TLEN");
            add(&given);
            return sv_add_given(&given, buffer, sizeof buffer, writer, NULL) == 0 ? 0 : 3;
        }
    "#;
    let want = [
        (sys::SV_UNKNOWN_VERSION, 0, 0),
        (0, 15, 15),
        (sys::SV_ZERO_IN_NAME, 0, 15),
        (sys::SV_WRONG_ID, 0, 15),
        (0, 0, 15),
    ];
    let want: String = want.iter().map(|(answer, count, used)| format!("{answer} {count} {used}\n")).collect();
    for text in printed("given", &[code]) {
        assert_eq!(text, want);
    }
}

/// What editing answers, and the bytes after the tag's header then.
#[test]
fn a_given_record_replaces_and_is_appended() {
    let code = r#"
        #include "streamvault.h"
        #include <inttypes.h>
        #include <stdio.h>
        #include <string.h>

        static uint8_t tag[10 + 31] = "ID3\3\0\0\0\0\0\37";

        static void edited(uint32_t answer)
        {
            printf("%" PRIu32 " ", answer);
            for (size_t at = 10; at < sizeof tag; at++)
                printf("%02X", tag[at]);
            printf("\n");
        }

        int main(void)
        {
            sv_given given = sv_given_of(SV_KIND_POPULARIMETER, "POPM");
            given.record[SV_POPULARIMETER_COUNTER] = 258;
            given.name = (const uint8_t *)"a";
            given.name_len = 1;
            edited(sv_replace_given(tag, sizeof tag, 0, &given));
            edited(sv_append_given(tag, sizeof tag, &given));
            edited(sv_append_given(tag, sizeof tag, &given));
            edited(sv_append_given(tag, sizeof tag, &given));
            given.record[SV_POPULARIMETER_COUNTER] = 1;
            edited(sv_replace_given(tag, sizeof tag, 0, &given));
            given.name_len = 2;
            edited(sv_replace_given(tag, sizeof tag, 1, &given));
            edited(sv_remove(tag, sizeof tag, 0));
            return 0;
        }
    "#;
    let [two, one] = ["504F504D000000050000610000" /* a, 258 */, "504F504D000000040000610000" /* a, 1 */];
    let [two, one] = [format!("{two}0102"), format!("{one}01")];
    let want = [
        (sys::SV_NO_SUCH_FRAME, String::new()),
        (0, two.clone()),
        (0, two.clone() + &two),
        (sys::SV_NO_ROOM, two.clone() + &two),
        (0, one.clone() + &two),
        (sys::SV_ZERO_IN_NAME, one.clone() + &two),
        (0, two.clone()),
    ];
    let want: String = want.iter().map(|(answer, frames)| format!("{answer} {frames:0<62}\n")).collect();
    for text in printed("edited", &[code]) {
        assert_eq!(text, want);
    }
}
