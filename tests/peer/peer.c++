// Prints what C++ Cap'n Proto answers to each of the consecutive framed messages of standard input:
//
//     peer canon|flat|copy|check|size [packed] [pack]     like the commands of capnp_canon; `copy` writes the segments unchanged
//     peer scatter                                        the same messages with their objects in many segments
//     peer book WORDS [data]                              a message of about WORDS words; with `data`, mostly one block
#include "people.capnp.h"
#include <capnp/any.h>
#include <capnp/message.h>
#include <capnp/serialize-packed.h>
#include <capnp/serialize.h>
#include <cstdlib>
#include <kj/io.h>
#include <kj/vector.h>
#include <string>

using capnp::AnyPointer;
using capnp::MallocMessageBuilder;
using Segments = kj::ArrayPtr<const kj::ArrayPtr<const capnp::word>>;

constexpr size_t BUFFER = 1 << 16;

struct Task {
    std::string command;
    bool packed = false, pack = false;
};

void writeSegments(kj::BufferedOutputStream& output, Segments segments, bool pack) {
    if (pack) {
        capnp::writePackedMessage(output, segments);
    } else {
        capnp::writeMessage(output, segments);
    }
}

void writeText(kj::OutputStream& output, const std::string& text) { output.write(text.data(), text.size()); }

void canon(const Task& task, AnyPointer::Reader root, kj::BufferedOutputStream& output) {
    MallocMessageBuilder to(uint(root.targetSize().wordCount + 1), capnp::AllocationStrategy::FIXED_SIZE);
    to.getRoot<AnyPointer>().setCanonical(root);
    if (task.command == "canon") {
        writeSegments(output, to.getSegmentsForOutput(), task.pack);
    } else {
        for (auto words : to.getSegmentsForOutput()) output.write(words.begin(), words.size() * sizeof(capnp::word));
    }
}

void copy(const Task& task, capnp::MessageReader& reader, kj::BufferedOutputStream& output) {
    kj::Vector<kj::ArrayPtr<const capnp::word>> segments;
    for (uint id = 0;; id++) {
        auto segment = reader.getSegment(id);
        if (segment == nullptr) break;
        segments.add(segment);
    }
    writeSegments(output, segments.asPtr(), task.pack);
}

// Writes every object in a segment of its own. Of three messages, one has plain far pointers, one has a landing pad of two
// words at its root, and one has such landing pads at the pointers of its root.
void scatter(uint number, AnyPointer::Reader from, kj::BufferedOutputStream& output) {
    MallocMessageBuilder to(1, capnp::AllocationStrategy::FIXED_SIZE);
    auto root = to.getRoot<AnyPointer>();
    if (number % 3 == 1) {
        root.adopt(to.getOrphanage().newOrphanCopy(from.getAs<capnp::AnyStruct>()));
    } else {
        root.set(from);
    }
    if (number % 3 == 2) {
        auto pointers = root.getAs<capnp::AnyStruct>().getPointerSection();
        auto sources = from.getAs<capnp::AnyStruct>().getPointerSection();
        for (uint i = 0; i < pointers.size(); i++) {
            auto source = sources[i];
            if (source.isList()) pointers[i].adopt(to.getOrphanage().newOrphanCopy(source.getAs<capnp::AnyList>()));
        }
    }
    writeSegments(output, to.getSegmentsForOutput(), false);
}

// Returns whether the answer is a yes.
bool answer(const Task& task, uint number, capnp::MessageReader& reader, kj::BufferedOutputStream& output) {
    if (task.command == "check") {
        bool canonical = reader.isCanonical();
        writeText(output, canonical ? "canonical\n" : "not canonical\n");
        return canonical;
    }
    auto root = reader.getRoot<AnyPointer>();
    if (task.command == "size") {
        auto size = root.targetSize();
        writeText(output, "words " + std::to_string(size.wordCount) + " caps " + std::to_string(size.capCount) + "\n");
    } else if (task.command == "scatter") {
        scatter(number, root, output);
    } else if (task.command == "copy") {
        copy(task, reader, output);
    } else {
        canon(task, root, output);
    }
    return true;
}

bool answerAll(const Task& task) {
    kj::FdInputStream standardInput(0);
    kj::FdOutputStream standardOutput(1);
    auto in = kj::heapArray<kj::byte>(BUFFER), out = kj::heapArray<kj::byte>(BUFFER);
    kj::BufferedInputStreamWrapper input(standardInput, in);
    kj::BufferedOutputStreamWrapper output(standardOutput, out);
    capnp::ReaderOptions options;
    options.traversalLimitInWords = 1 << 30;  // targetSize and setCanonical charge it twice
    bool all = true;
    for (uint number = 0; input.tryGetReadBuffer().size() > 0; number++) {
        if (task.packed) {
            capnp::PackedMessageReader reader(input, options);
            all &= answer(task, number, reader, output);
        } else {
            capnp::InputStreamMessageReader reader(input, options);
            all &= answer(task, number, reader, output);
        }
    }
    return all;
}

void writeBook(size_t words, bool data) {
    MallocMessageBuilder to(1 << 20);
    auto book = to.initRoot<Book>();
    book.setTitle("big");
    if (data) {
        auto blob = book.initPeople(1)[0].initBlob((words - 32) * sizeof(capnp::word));
        for (size_t i = 0; i < blob.size(); i++) blob[i] = (i * 2654435761u) >> 24;
    } else {
        // a person takes 31 words
        auto people = book.initPeople(words / 31);
        for (size_t i = 0; i < people.size(); i++) {
            auto person = people[i];
            person.setId(i * 0x9E3779B97F4A7C15ull);
            person.setName("name" + std::to_string(i % 100000));
            person.setEmail("someone" + std::to_string(i % 1000000) + "@example.org");
            auto phones = person.initPhones(2);
            phones[0].setNumber("555-1212");
            phones[0].setKind(1);
            phones[1].setNumber("555-3434");
            person.initBirth().setYear(1970 + i % 50);
            person.initFlags(9).set(3, true);
        }
    }
    capnp::writeMessageToFd(1, to);
}

int main(int count, char** words) {
    Task task;
    if (count > 1) task.command = words[1];
    if (task.command == "book") {
        writeBook(strtoull(words[2], nullptr, 10), count > 3);
        return 0;
    }
    for (int i = 2; i < count; i++) {
        task.packed |= words[i] == std::string("packed");
        task.pack |= words[i] == std::string("pack");
    }
    return answerAll(task) ? 0 : 1;
}
