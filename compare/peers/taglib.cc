// Reads a tag by TagLib: how many frames it has, and the sum of its popularimeters' counters. Answers 0 where it reads none.
#include <cstddef>
#include <cstdint>
#include <taglib/id3v2framefactory.h>
#include <taglib/id3v2tag.h>
#include <taglib/mpegfile.h>
#include <taglib/popularimeterframe.h>
#include <taglib/tbytevectorstream.h>

extern "C" int peer_read(const uint8_t *bytes, size_t len, uint64_t *frames, uint64_t *sum)
{
    TagLib::ByteVectorStream stream(TagLib::ByteVector(reinterpret_cast<const char *>(bytes), static_cast<unsigned int>(len)));
    TagLib::MPEG::File file(&stream, TagLib::ID3v2::FrameFactory::instance(), false);
    if (!file.hasID3v2Tag())
        return 0;
    const TagLib::ID3v2::FrameList &all = file.ID3v2Tag()->frameList();
    *frames += all.size();
    for (TagLib::ID3v2::FrameList::ConstIterator i = all.begin(); i != all.end(); ++i)
        if (const TagLib::ID3v2::PopularimeterFrame *one = dynamic_cast<const TagLib::ID3v2::PopularimeterFrame *>(*i))
            *sum += one->counter();
    return 1;
}
