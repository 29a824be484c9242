// An engine from C++: opened, stepped and closed by a class of its own. Prints what scripts/embed compares.
#include "dc429.h"

#include <cstdio>
#include <fstream>
#include <iterator>
#include <stdexcept>
#include <string>

static_assert(DC429_VERSION_NUMBER >= 100, "a header without its number");

class Engine {
  public:
    Engine(const std::string &tables, const std::string &certificate) {
        dc429_fault fault;
        if (!dc429_open(&slot, bytes(tables), tables.size(), bytes(certificate), certificate.size(), &fault))
            throw std::runtime_error("not opened");
    }
    ~Engine() { dc429_close(&slot); }
    Engine(const Engine &) = delete;
    Engine &operator=(const Engine &) = delete;

    dc429_reply arrive(std::size_t bus, std::uint32_t word) { return told(dc429_arrive, bus, word); }
    dc429_reply route(std::size_t router) { return told(dc429_route, router); }
    dc429_reply send(std::size_t output) { return told(dc429_send, output); }
    dc429_reply tick() { return told(dc429_tick); }

  private:
    static const std::uint8_t *bytes(const std::string &text) { return reinterpret_cast<const std::uint8_t *>(text.data()); }

    template <typename Call, typename... Given> dc429_reply told(Call call, Given... given) {
        dc429_reply reply;
        if (call(&slot, given..., &reply) != DC429_OK)
            throw std::runtime_error("refused");
        return reply;
    }

    dc429 slot = DC429_CLOSED;
};

static std::string load(const char *path) {
    std::ifstream file(path, std::ios::binary);
    return { std::istreambuf_iterator<char>(file), std::istreambuf_iterator<char>() };
}

static void show(const dc429_reply &reply) {
    std::printf("%u %u %08X %u %zu %llu\n", reply.kind, reply.label, reply.word, reply.backlog, reply.number,
                static_cast<unsigned long long>(reply.tick));
}

int main(int, char **given) {
    Engine engine(load(given[1]), load(given[2]));
    show(engine.route(0));
    show(engine.arrive(0, 0x600000C1));
    show(engine.route(0));
    show(engine.send(0));
    show(engine.tick());
    try {
        engine.route(7);
    } catch (const std::runtime_error &error) {
        std::printf("%s\n", error.what());
    }
}
