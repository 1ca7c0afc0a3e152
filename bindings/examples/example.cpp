// A small history in C++: two commits on top of one, stored, and asked: `c++ -std=c++17 example.cpp -lsegdag`, and then `./a.out LOG` of a new log.
#include <segdag.h>
#include <cstring>
#include <iostream>
#include <memory>
#include <stdexcept>
#include <string>
#include <vector>

namespace {

// Why a call failed.
struct failure : std::runtime_error {
    segdag_code code;
    explicit failure(segdag_code code) : std::runtime_error(segdag_last_error()->text), code(code) {}
};

void check(segdag_code code) {
    if (code)
        throw failure(code);
}

// A store and a cursor are let go where they go out of scope.
struct closer {
    void operator()(segdag_store *store) const { segdag_store_close(store); }
    void operator()(segdag_cursor *cursor) const { segdag_cursor_close(cursor); }
};
using store = std::unique_ptr<segdag_store, closer>;
using cursor = std::unique_ptr<segdag_cursor, closer>;

store create(const char *path) {
    segdag_open_options options = SEGDAG_OPEN_OPTIONS_INIT;
    options.flags = SEGDAG_OPEN_CREATE;
    segdag_store *made = nullptr;
    check(segdag_store_open(path, &options, &made));
    return store(made);
}

std::vector<segdag_id> query(const store &of, const std::string &expression) {
    segdag_cursor *made = nullptr;
    check(segdag_query_open(of.get(), 0, expression.data(), expression.size(), &made));
    cursor owned(made);
    std::vector<segdag_id> members(segdag_cursor_left(made));
    std::size_t count = 0;
    if (!members.empty())
        check(segdag_cursor_next(made, members.data(), members.size(), &count));
    return members;
}

segdag_id id_of(int byte) {
    segdag_id id;
    std::memset(id.id, byte, sizeof id.id);
    return id;
}

}

int main(int count, char **words) {
    try {
        store log = create(count > 1 ? words[1] : "example.log");
        const segdag_id first = id_of(1), second = id_of(2), third = id_of(3);
        std::uint64_t number = 0;
        segdag_sizes sizes = SEGDAG_SIZES_INIT;
        bool is = false;
        check(segdag_commit_add(log.get(), 0, &first, nullptr, 0, &number));
        check(segdag_commit_add(log.get(), 0, &second, &first, 1, &number));
        check(segdag_commit_add(log.get(), 0, &third, &first, 1, &number));
        check(segdag_session_flush(log.get(), 0, &second, 1, &sizes));
        check(segdag_commit_is_ancestor(log.get(), 0, &first, &third, &is));
        std::cout << query(log, "all").size() << " commits; the first is an ancestor of the third: " << std::boolalpha << is << '\n';
        check(segdag_commit_add(log.get(), 0, &second, nullptr, 0, &number));
    } catch (const failure &failed) {
        std::cout << "refused: " << failed.what() << '\n';
        return failed.code == SEGDAG_DIFFERS ? 0 : 1;
    }
}
