// A wrapper for run.py over C++ Cap'n Proto, at its default limits:
//
//     g++ -std=c++17 -O2 -o example example.c++ -lcapnp -lkj
//     ./run.py ./example words              ./run.py --check ./example check
//     ./run.py --packed ./example words packed
#include <capnp/any.h>
#include <capnp/message.h>
#include <capnp/serialize-packed.h>
#include <capnp/serialize.h>
#include <kj/io.h>
#include <string>

template <typename Reader>
int answer(const std::string& task, Reader&& open) {
    if (task == "check") return open()->isCanonical() ? 0 : 1;
    // two readers, since measuring charges the traversal limit too
    auto size = open()->template getRoot<capnp::AnyPointer>().targetSize().wordCount;
    capnp::MallocMessageBuilder to(uint(size + 1), capnp::AllocationStrategy::FIXED_SIZE);
    auto from = open();
    to.getRoot<capnp::AnyPointer>().setCanonical(from->template getRoot<capnp::AnyPointer>());
    kj::FdOutputStream output(1);
    for (auto words : to.getSegmentsForOutput()) output.write(words.begin(), words.size() * sizeof(capnp::word));
    return 0;
}

int main(int count, char** words) {
    kj::FdInputStream standardInput(0);
    auto bytes = standardInput.readAllBytes();
    kj::ArrayInputStream first(bytes), second(bytes);
    kj::ArrayInputStream* inputs[] = {&first, &second};
    int opened = 0;
    try {
        if (count > 2) return answer(words[1], [&] { return kj::heap<capnp::PackedMessageReader>(*inputs[opened++]); });
        return answer(words[1], [&] { return kj::heap<capnp::InputStreamMessageReader>(*inputs[opened++]); });
    } catch (const kj::Exception&) {
        return 2;
    }
}
