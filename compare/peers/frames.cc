// Writes a tag by TagLib, or prints what it reads of one.
//
//     frames write FILE EDITION TITLE USER COUNTER USER COUNTER    EDITION is 3 or 4; the ratings are 0 and 1, and there is a chapter
//     frames list FILE                                            a line for each frame: its id, and what TagLib has of it
#include <cstdio>
#include <cstdlib>
#include <cstring>
#include <taglib/chapterframe.h>
#include <taglib/id3v2framefactory.h>
#include <taglib/id3v2tag.h>
#include <taglib/mpegfile.h>
#include <taglib/popularimeterframe.h>
#include <taglib/textidentificationframe.h>

using namespace TagLib;

static ID3v2::Frame *text(const char *id, const char *words)
{
    ID3v2::TextIdentificationFrame *frame = new ID3v2::TextIdentificationFrame(id, String::UTF16);
    frame->setText(String(words, String::UTF8));
    return frame;
}

static ID3v2::Frame *popularimeter(const char *user, int rating, const char *counter)
{
    ID3v2::PopularimeterFrame *frame = new ID3v2::PopularimeterFrame();
    frame->setEmail(String(user, String::UTF8));
    frame->setRating(rating);
    frame->setCounter(static_cast<unsigned int>(std::strtoul(counter, nullptr, 10)));
    return frame;
}

static int write(char **words)
{
    MPEG::File file(words[0]);
    ID3v2::Tag *tag = file.ID3v2Tag(true);
    tag->addFrame(text("TIT2", words[2]));
    tag->addFrame(text("TPE1", "Somebody"));
    ID3v2::FrameList inside;
    inside.append(text("TIT2", "One"));
    tag->addFrame(new ID3v2::ChapterFrame("one", 0, 5, 6, 7, inside));
    tag->addFrame(popularimeter(words[3], 0, words[4]));
    tag->addFrame(popularimeter(words[5], 1, words[6]));
    return file.save(MPEG::File::ID3v2, File::StripOthers, words[1][0] == '3' ? ID3v2::v3 : ID3v2::v4) ? 0 : 3;
}

// Its fields where it is a popularimeter, else the bytes that TagLib would write for it.
static void print(ID3v2::Frame *frame)
{
    std::printf("%.4s", frame->frameID().data());
    if (ID3v2::PopularimeterFrame *one = dynamic_cast<ID3v2::PopularimeterFrame *>(frame)) {
        std::printf(" %s %d %u\n", one->email().toCString(true), one->rating(), one->counter());
        return;
    }
    ByteVector bytes = frame->render();
    std::printf(" ");
    for (unsigned int i = 0; i < bytes.size(); i++)
        std::printf("%02x", static_cast<unsigned char>(bytes[i]));
    std::printf("\n");
}

static int list(const char *path)
{
    MPEG::File file(path, false);
    if (!file.hasID3v2Tag())
        return 1;
    const ID3v2::FrameList &all = file.ID3v2Tag()->frameList();
    for (ID3v2::FrameList::ConstIterator i = all.begin(); i != all.end(); ++i)
        print(*i);
    return 0;
}

int main(int count, char **words)
{
    if (count == 9 && std::strcmp(words[1], "write") == 0)
        return write(words + 2);
    if (count == 3 && std::strcmp(words[1], "list") == 0)
        return list(words[2]);
    std::fprintf(stderr, "usage: frames write FILE EDITION TITLE USER COUNTER USER COUNTER, or frames list FILE\n");
    return 2;
}
