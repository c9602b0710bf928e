// Tests of include/oer.hpp: test FOLDER STRINGS TABLE
//
// FOLDER is examples/ieee1609dot2, STRINGS is how many random strings of octets are tried, and TABLE is
// what bindings/table printed. The vectors are those of the tests in C. It says what differs, and then
// its status is 1. Octets that are read and buffers that are written end where a page ends that may be
// used, so that a call that goes past them ends the program. With FAIL_MEMORY defined, and linked with
// --wrap for malloc and realloc, allocations of the library fail in turn as well.
#include "oer.hpp"
#include "vectors.h"

#include <algorithm>
#include <array>
#include <atomic>
#include <cstdio>
#include <cstdlib>
#include <fstream>
#include <iterator>
#include <sstream>
#include <string>
#include <sys/mman.h>
#include <thread>
#include <unistd.h>
#include <vector>
#ifdef __cpp_lib_string_view
#include <string_view>
#endif

typedef std::vector<std::uint8_t> bytes;

static bool differs;

#define EXPECT(condition, what)                                                                          \
    do {                                                                                                 \
        if (!(condition)) {                                                                              \
            std::printf("bindings/cpp/test.cc:%d: %s: %.200s\n", __LINE__, #condition,                   \
                        std::string(what).c_str());                                                      \
            differs = true;                                                                              \
        }                                                                                                \
    } while (0)

static_assert(!std::is_copy_constructible<oer::types>::value, "types are not copied");
static_assert(!std::is_copy_assignable<oer::types>::value, "types are not copied");
static_assert(std::is_nothrow_move_constructible<oer::types>::value, "types are moved");
static_assert(std::is_nothrow_move_assignable<oer::types>::value, "types are moved");
static_assert(!std::is_copy_constructible<oer::octets>::value, "octets are not copied");
static_assert(std::is_nothrow_move_constructible<oer::octets>::value, "octets are moved");
static_assert(!std::is_convertible<const bytes &, oer::octets_out>::value, "what is const is not written");
static_assert(!std::is_convertible<const std::vector<char> &, oer::octets_out>::value, "what is const is not written");
static_assert(!std::is_convertible<const std::string &, oer::octets_out>::value, "what is const is not written");
static_assert(!std::is_convertible<const std::array<const signed char, 2> &, oer::octets_out>::value, "what is const is not written");
static_assert(std::is_convertible<const std::string &, oer::octets_in>::value, "octets in a string");
static_assert(std::is_convertible<std::vector<char>, oer::octets_in>::value, "octets");
static_assert(std::is_convertible<std::vector<signed char> &, oer::octets_out>::value, "octets");
static_assert(!std::is_convertible<std::vector<std::uint16_t>, oer::octets_in>::value, "not octets");
static_assert(!std::is_convertible<std::vector<std::int32_t> &, oer::octets_out>::value, "not octets");
static_assert(!std::is_convertible<std::array<bool, 2>, oer::octets_in>::value, "not octets");
static_assert(!std::is_convertible<std::array<char *, 2>, oer::octets_in>::value, "not octets");
static_assert(!std::is_convertible<std::wstring, oer::octets_in>::value, "not octets");
static_assert(!std::is_convertible<std::u16string, oer::octets_in>::value, "not octets");
static_assert(!std::is_convertible<std::vector<char>, oer::slice<const oer::message>>::value, "not messages");
static_assert(!std::is_convertible<bytes, oer::text_in>::value, "octets are no text");
static_assert(!std::is_convertible<bytes &, oer::text_out>::value, "octets are no text");
static_assert(!std::is_convertible<const char (&)[3], oer::octets_in>::value, "a literal has a zero octet at its end");
#ifdef __cpp_lib_byte
static_assert(std::is_convertible<const std::vector<std::byte> &, oer::octets_in>::value, "octets");
static_assert(std::is_convertible<std::vector<std::byte> &, oer::octets_out>::value, "octets");
static_assert(!std::is_convertible<const std::vector<std::byte> &, oer::octets_out>::value, "what is const is not written");
static_assert(!std::is_convertible<std::vector<std::byte>, oer::text_in>::value, "octets are no text");
#endif
static_assert(std::is_constructible<oer::octets_in, std::uint8_t *, std::size_t>::value, "a pointer");
static_assert(!std::is_constructible<oer::octets_in, const char *, std::size_t>::value, "a text is no octets");
static_assert(!std::is_constructible<oer::octets_in, int, std::size_t>::value, "a number is no pointer");
static_assert(!std::is_constructible<oer::octets_in, std::nullptr_t, std::size_t>::value, "a null constant is no pointer");
static_assert(!std::is_constructible<oer::octets_out, std::nullptr_t, std::size_t>::value, "a null constant is no pointer");
static_assert(!std::is_constructible<oer::text_in, std::nullptr_t, std::size_t>::value, "a null constant is no pointer");
static_assert(!std::is_convertible<std::nullptr_t, oer::text_in>::value, "a null constant is no text");
static_assert(std::is_copy_constructible<oer::result<oer::checked>>::value, "numbers are copied");
static_assert(!std::is_copy_constructible<oer::result<oer::types>>::value, "types are not copied");
static_assert(!std::is_copy_assignable<oer::result<oer::octets>>::value, "octets are not copied");
static_assert(std::is_nothrow_move_constructible<oer::result<oer::types>>::value, "results are moved");
static_assert(std::is_nothrow_move_assignable<oer::result<oer::types>>::value, "results are moved");
#ifdef __cpp_lib_span
static_assert(std::is_convertible<std::span<const std::uint8_t>, oer::octets_in>::value, "a span");
static_assert(std::is_convertible<std::span<std::uint8_t>, oer::octets_out>::value, "a span");
static_assert(std::is_convertible<const oer::octets &, std::span<const std::uint8_t>>::value, "a span");
static_assert(std::is_convertible<std::span<const std::byte>, oer::octets_in>::value, "a span");
static_assert(std::is_convertible<std::span<char>, oer::octets_out>::value, "a span");
static_assert(!std::is_convertible<std::span<const std::byte>, oer::octets_out>::value, "what is const is not written");
static_assert(!std::is_convertible<std::span<const std::uint32_t>, oer::octets_in>::value, "not octets");
#endif

// ---- memory that runs out

// Whether the header's allocations fail.
static bool fail_new;

void *operator new[](std::size_t size, const std::nothrow_t &) noexcept {
    return fail_new ? nullptr : ::operator new[](size);
}

#ifdef FAIL_MEMORY
// The allocation number `fail_at` of the library fails.
static long allocations, fail_at;

extern "C" {
void *__real_malloc(std::size_t size);
void *__real_realloc(void *old, std::size_t size);
void *__wrap_malloc(std::size_t size) { return ++allocations == fail_at ? nullptr : __real_malloc(size); }
void *__wrap_realloc(void *old, std::size_t size) {
    return ++allocations == fail_at ? nullptr : __real_realloc(old, size);
}
}
#endif

// ---- memory before a page that may not be touched

class guarded {
public:
    guarded() : page_(static_cast<std::size_t>(sysconf(_SC_PAGESIZE))), size_(4 * page_) {
        void *at = mmap(nullptr, size_ + page_, PROT_READ | PROT_WRITE, MAP_PRIVATE | MAP_ANONYMOUS, -1, 0);
        if (at == MAP_FAILED || mprotect(static_cast<char *>(at) + size_, page_, PROT_NONE) != 0) std::abort();
        at_ = static_cast<std::uint8_t *>(at);
    }
    ~guarded() { munmap(at_, size_ + page_); }
    guarded(const guarded &) = delete;
    guarded &operator=(const guarded &) = delete;

    // So many octets, the last ones before the page.
    std::uint8_t *end_with(std::size_t size) const {
        if (size > size_) std::abort();
        return at_ + size_ - size;
    }

    oer::octets_in with(const bytes &octets) const {
        std::copy(octets.begin(), octets.end(), end_with(octets.size()));
        return oer::octets_in(end_with(octets.size()), octets.size());
    }

private:
    std::size_t page_, size_;
    std::uint8_t *at_;
};

// ---- octets

static bytes from_hex(const std::string &digits) {
    bytes octets;
    for (std::size_t i = 0; i + 1 < digits.size() && digits[i] > ' '; i += 2)
        octets.push_back(static_cast<std::uint8_t>(std::stoi(digits.substr(i, 2), nullptr, 16)));
    return octets;
}

static bytes from_text(const std::string &text) { return bytes(text.begin(), text.end()); }

static std::string contents(const std::string &path) {
    std::ifstream file(path, std::ios::binary);
    EXPECT(file.good(), path);
    return std::string(std::istreambuf_iterator<char>(file), std::istreambuf_iterator<char>());
}

template <class T>
static bytes copy(const oer::buffer<T> &made) {
    return bytes(made.begin(), made.end());
}

// ---- calls

// What a call answered: its error, or what it made. A check makes nothing, and `size` is `canonical`.
struct answer {
    oer::error error;
    bytes made;
    std::uint64_t read, size;
};

// That the call throws the error of the result, if it has one.
template <class T, class Call>
static void test_throws(const oer::result<T> &from, Call call) {
    try {
        call();
        EXPECT(from.ok(), "it throws");
    } catch (const oer::failure &thrown) {
        EXPECT(!from.ok() && thrown.error().status == from.error().status, thrown.what());
        EXPECT(thrown.error().why == from.error().why && thrown.error().place == from.error().place, thrown.what());
        EXPECT(thrown.what() == std::string(from.error().name()), thrown.what());
    }
}

// That the ways to the answer of a result throw the error that it has.
template <class T>
static void test_value(oer::result<T> &from) {
    const oer::result<T> &same = from;
    EXPECT(from.ok() == static_cast<bool>(from), "bool");
    test_throws(from, [&] { EXPECT(&from.value() == &*from, "one answer"); });
    test_throws(from, [&] { EXPECT(&same.value() == &*same, "one answer"); });
    test_throws(from, [&] { *from; });
    test_throws(from, [&] { *same; });
    test_throws(from, [&] { EXPECT(from.operator->() == &*from, "one answer"); });
    test_throws(from, [&] { EXPECT(same.operator->() == &*same, "one answer"); });
    if (from.ok()) return;
    test_throws(from, [&] { std::move(from).value(); });
    test_throws(from, [&] { *std::move(from); });
}

template <class T>
static answer of(oer::result<oer::buffer<T>> from) {
    test_value(from);
    answer made = { from.error(), bytes(), 0, 0 };
    if (!from) return made;
    made.made = copy(from.value());
    made.read = from.value().read();
    made.size = from.value().size();
    return made;
}

static answer of(oer::result<oer::checked> from) {
    test_value(from);
    answer made = { from.error(), bytes(), 0, 0 };
    if (!from) return made;
    made.read = from.value().octets;
    made.size = from.value().canonical;
    return made;
}

static answer call(oer::types &types, const char *name, const vector &row) {
    static const guarded memory;
    if (row.task == FROM_JSON) return of(types.from_json(name, row.given));
    if (row.task == EXPLAIN_JSON) return of(types.explain_json(name, row.given));
    oer::octets_in given = memory.with(from_hex(row.given));
    switch (row.task) {
    case CANON:
        return of(types.canon(name, given, row.limit));
    case PART:
        return of(types.part(name, given, row.path));
    case TO_JSON:
        return of(types.to_json(name, given, row.limit));
    case WHOLE:
        return of(types.check_whole(name, given));
    case EXPLAIN_OCTETS:
        return of(types.explain_octets(name, given));
    default:
        return of(types.check(name, given));
    }
}

// The same into a buffer.
static oer::result<oer::written> call_into(oer::types &types, const vector &row, oer::octets_out out) {
    const oer::text_out letters(reinterpret_cast<char *>(out.data()), out.size());
    if (row.task == FROM_JSON) return types.from_json_into("A", row.given, out);
    if (row.task == EXPLAIN_JSON) return types.explain_json_into("A", row.given, letters);
    bytes given = from_hex(row.given);
    switch (row.task) {
    case CANON:
        return types.canon_into("A", given, out, row.limit);
    case PART:
        return types.part_into("A", given, row.path, out);
    case EXPLAIN_OCTETS:
        return types.explain_octets_into("A", given, letters);
    default:
        return types.to_json_into("A", given, letters, row.limit);
    }
}

static oer::types types_of(const std::string &type) {
    std::string text = "A ::= " + type;
    oer::types types;
    oer::result<std::uint64_t> read = types.read(text);
    test_value(read);
    EXPECT(read.ok() && read.value() == text.size(), text);
    return types;
}

// What the calls of the row read.
static oer::subject subject_of(const vector &row) {
    return row.task == FROM_JSON || row.task == EXPLAIN_JSON ? oer::subject::json : oer::subject::octets;
}

static bool is_only(const oer::error &error, std::uint32_t status) {
    return error.status == status && error.why == 0 && error.place == 0 && error.needed == 0;
}

// ---- the table

static bytes wanted(const vector &row) {
    if (!row.answer) return bytes();
    bool is_text = row.task == TO_JSON || row.task == EXPLAIN_JSON || row.task == EXPLAIN_OCTETS;
    return is_text ? from_text(row.answer) : from_hex(row.answer);
}

// Each size below what is needed is too small, and leaves the buffer as it was.
static void test_rooms(oer::types &types, const vector &row) {
    static const guarded memory;
    bytes want = wanted(row);
    std::size_t room;
    for (room = 0; room < want.size(); room++) {
        std::uint8_t *out = memory.end_with(room);
        std::fill(out, out + room, static_cast<std::uint8_t>(0xbb));
        oer::result<oer::written> small = call_into(types, row, oer::octets_out(room ? out : nullptr, room));
        EXPECT(small.error().status == OER_ROOM && small.error().needed == want.size(), row.given);
        EXPECT(small.error().why == 0 && small.error().place == 0, row.given);
        EXPECT(std::count(out, out + room, 0xbb) == static_cast<std::ptrdiff_t>(room), row.given);
    }
    room = want.size();
    std::uint8_t *out = memory.end_with(room);
    std::fill(out, out + room, static_cast<std::uint8_t>(0xcc));
    oer::result<oer::written> made = call_into(types, row, oer::octets_out(out, room));
    EXPECT(made.error().status == row.status && made.error().why == row.why, row.given);
    EXPECT(made.error().place == (row.status ? row.octets : 0) && made.error().needed == 0, row.given);
    EXPECT(made.ok() || made.error().of == subject_of(row), row.given);
    if (!made) return;
    EXPECT(made.value().size == want.size() && made.value().read == row.octets, row.given);
    EXPECT(std::equal(want.begin(), want.end(), out), row.given);
}

static void test_vector(const vector &row) {
    oer::types types = types_of(row.type);
    answer made = call(types, "A", row);
    EXPECT(made.error.status == row.status && made.error.why == row.why && made.error.needed == 0, row.given);
    EXPECT(made.error.place == (row.status ? row.octets : 0), row.given);
    EXPECT(made.read == (row.status ? 0 : row.octets) && made.size == (row.status ? 0 : row.written), row.given);
    EXPECT(made.made == wanted(row), row.given);
    EXPECT(!made.error.status || made.error.of == subject_of(row), row.given);
    if (row.task != CHECK && row.task != WHOLE) test_rooms(types, row);
    EXPECT(is_only(call(types, "B", row).error, OER_UNNAMED), row.given);
    EXPECT(is_only(call(types, "", row).error, OER_UNNAMED), row.given);
    EXPECT(is_only(call(types, "\377", row).error, OER_UNNAMED), row.given);
    oer::types moved = std::move(types);
    EXPECT(is_only(call(types, "A", row).error, OER_NO_TYPES), "moved from");
    EXPECT(call(moved, "A", row).error.status == row.status, "moved to");
    moved.free();
    EXPECT(is_only(call(moved, "A", row).error, OER_NO_TYPES), "freed");
    moved.free();
    EXPECT(is_only(call(moved, "A", row).error, OER_NO_TYPES), "freed twice");
    oer::types none;
    EXPECT(is_only(call(none, "A", row).error, OER_NO_TYPES), "before types are read");
}

// Where a part lies, as one of the two calls says it.
static void test_place(const place &row, oer::result<oer::located> (oer::types::*locate)(oer::text_in, oer::octets_in, oer::text_in)) {
    oer::types types = types_of(row.type);
    bytes given = from_hex(row.given);
    oer::result<oer::located> found = (types.*locate)("A", given, row.path);
    test_value(found);
    EXPECT(found.error().status == row.status && found.error().why == row.why, row.given);
    EXPECT(found.error().place == (row.status ? row.octets : 0) && found.error().needed == 0, row.given);
    EXPECT(found.ok() == (row.status == OER_OK), row.given);
    if (found.ok()) EXPECT(found->at == row.at && found->length == row.length && found->read == row.octets, row.given);
    EXPECT(is_only((types.*locate)("B", given, row.path).error(), OER_UNNAMED), row.given);
    types.free();
    EXPECT(is_only((types.*locate)("A", given, row.path).error(), OER_NO_TYPES), row.given);
}

// A part by names: the octets that lie there, or the error; and nothing in a buffer that is too small.
static void test_named(const place &row) {
    static const guarded memory;
    oer::types types = types_of(row.type);
    bytes given = from_hex(row.given), want(given.begin() + static_cast<std::ptrdiff_t>(row.at), given.begin() + static_cast<std::ptrdiff_t>(row.at + row.length));
    answer made = of(types.part_named("A", given, row.path));
    EXPECT(made.error.status == row.status && made.error.why == row.why && made.error.needed == 0, row.given);
    EXPECT(made.error.place == (row.status ? row.octets : 0) && made.made == want, row.given);
    EXPECT(made.read == (row.status ? 0 : row.octets) && made.size == row.length, row.given);
    for (std::size_t room = 0; room <= want.size(); room++) {
        std::uint8_t *out = memory.end_with(room);
        std::fill(out, out + room, static_cast<std::uint8_t>(0xbb));
        oer::result<oer::written> written = types.part_named_into("A", given, row.path, oer::octets_out(out, room));
        bool fits = room == want.size();
        EXPECT(written.error().status == (fits ? row.status : std::uint32_t(OER_ROOM)), row.given);
        EXPECT(written.error().needed == (fits ? 0 : want.size()), row.given);
        if (written.ok()) EXPECT(written->size == room && written->read == row.octets && std::equal(want.begin(), want.end(), out), row.given);
        if (!written.ok()) EXPECT(std::count(out, out + room, 0xbb) == static_cast<std::ptrdiff_t>(room), row.given);
    }
    EXPECT(is_only(types.part_named("B", given, row.path).error(), OER_UNNAMED), row.given);
    types.free();
    EXPECT(is_only(types.part_named("A", given, row.path).error(), OER_NO_TYPES), row.given);
}

// Each message has the answer that it has alone; one that isn't all in the octets has none.
static void test_many(const vector &row) {
    oer::types types = types_of(row.type);
    bytes given = from_hex(row.given);
    std::size_t size = given.size(), most = static_cast<std::size_t>(-1);
    const std::array<oer::message, 7> messages = { { { 0, size }, { 0, size / 2 }, { size, 0 }, { 1, size },
                                                     { size + 1, 0 }, { most, 1 }, { 0, most } } };
    std::array<oer_checked, 8> answers = {};
    answers[7].status = 77;
    oer::result<std::size_t> made = types.check_many("A", given, messages, answers);
    EXPECT(made.ok() && made.value() == messages.size() && answers[7].status == 77, row.given);
    for (std::size_t i = 0; i < messages.size(); i++) {
        oer::result<oer::checked> answer = oer::types::checked_of(answers[i]);
        if (i >= 3) {
            EXPECT(is_only(answer.error(), OER_OUTSIDE), row.given);
            continue;
        }
        ::answer found = of(answer), alone = of(types.check("A", oer::octets_in(given.data() + messages[i].at, messages[i].length)));
        EXPECT(found.error.status == alone.error.status && found.error.why == alone.error.why, row.given);
        EXPECT(found.error.place == alone.error.place, row.given);
        EXPECT(found.read == alone.read && found.size == alone.size, row.given);
    }
    made = types.check_many("A", given, messages, oer::slice<oer_checked>(answers.data(), 6));
    EXPECT(made.error().status == OER_ROOM && made.error().needed == 7, row.given);
    EXPECT(types.check_many("A", given, oer::slice<const oer::message>(), oer::slice<oer_checked>()).ok(), row.given);
    EXPECT(is_only(types.check_many("B", given, messages, answers).error(), OER_UNNAMED), row.given);
    types.free();
    EXPECT(is_only(types.check_many("A", given, messages, answers).error(), OER_NO_TYPES), row.given);
}

// Where an allocation fails, the header and the library say so, and the types are as before.
static void test_memory(const vector &row) {
    oer::types types = types_of(row.type);
    fail_new = true;
    oer::error error = call(types, "A", row).error;
    fail_new = false;
    EXPECT(is_only(error, OER_MEMORY) || row.task == CHECK || row.task == WHOLE, row.given);
#ifdef FAIL_MEMORY
    for (long nth = 1; nth <= 1000; nth++) {
        allocations = 0;
        fail_at = nth;
        answer from = call(types, "A", row);
        fail_at = 0;
        if (allocations < nth) break;
        // A near name is found without some memory.
        bool is_whole = row.task == EXPLAIN_JSON && from.error.status == OER_OK && from.made == wanted(row);
        EXPECT(is_whole || is_only(from.error, OER_MEMORY), row.given);
    }
    allocations = 0;
    fail_at = 1;
    EXPECT(is_only(types.read("A ::= NULL").error(), OER_MEMORY), row.given);
    fail_at = 0;
#endif
    EXPECT(call(types, "A", row).error.status == row.status, row.given);
}

// A text that is rejected leaves the types from before.
static void test_rejected_text(const rejected_text &row) {
    const bytes octets(1, 0xff);
    oer::result<oer::types> none = oer::types::of(row.text);
    test_value(none);
    EXPECT(none.error().status == OER_REJECTED && none.error().why == row.why, row.text);
    EXPECT(none.error().place == row.place && none.error().of == oer::subject::definitions, row.text);
    oer::types types = types_of("BOOLEAN");
    oer::result<std::uint64_t> read = types.read(row.text);
    EXPECT(read.error().status == OER_REJECTED && read.error().why == row.why, row.text);
    EXPECT(read.error().place == row.place, row.text);
    EXPECT(types.check("A", octets).value().octets == 1, row.text);
}

// The lines on definitions that are rejected; nothing in a buffer that is too small.
static void test_explained_text(const explained_text &row) {
    static const guarded memory;
    const bytes want = from_text(row.lines);
    answer made = of(oer::types::explain_types(row.text));
    EXPECT(made.error.status == OER_OK && made.made == want && made.read == 0, row.text);
    for (std::size_t room = 0; room <= want.size(); room++) {
        char *out = reinterpret_cast<char *>(memory.end_with(room));
        std::fill(out, out + room, 'x');
        oer::result<oer::written> written = oer::types::explain_types_into(row.text, oer::text_out(out, room));
        if (room == want.size()) {
            EXPECT(written.ok() && written->size == room && written->read == 0, row.text);
            EXPECT(bytes(out, out + room) == want, row.text);
        } else {
            EXPECT(written.error().status == OER_ROOM && written.error().needed == want.size(), row.text);
            EXPECT(std::count(out, out + room, 'x') == static_cast<std::ptrdiff_t>(room), row.text);
        }
    }
    fail_new = true;
    EXPECT(is_only(oer::types::explain_types(row.text).error(), OER_MEMORY), row.text);
    fail_new = false;
}

// Definitions whose types have more parts together than they may have leave the types from before.
static void test_parts() {
    const char *text = "A ::= NULL B ::= SEQUENCE {a A}";
    const bytes octets(1, 0xff);
    oer::types types = types_of("BOOLEAN");
    oer::error more = types.read(text, 2).error();
    EXPECT(more.status == OER_REJECTED && more.why == OER_TEXT_PARTS && more.place == 11, text);
    EXPECT(std::string(more.name()) == "Parts", text);
    EXPECT(types.check("A", octets).value().octets == 1, text);
    EXPECT(oer::types::of(text, 2).error().why == OER_TEXT_PARTS, text);
    EXPECT(oer::types::of(text, 3).ok() && types.read(text, 3).value() == 31, text);
}

// Modules that are rejected have an error with words, which is thrown as well.
static void test_rejected_modules(const modules_row &row) {
    std::vector<oer::text_in> texts(1, row.first);
    if (row.second) texts.push_back(row.second);
    oer::result<oer::types, oer::modules_error> none = oer::types::from_modules(texts);
    const oer::modules_error &error = none.error();
    EXPECT(error.status == OER_REJECTED && error.why == row.why && error.of == oer::subject::modules, row.first);
    EXPECT(error.text == row.text && error.place == row.place && error.needed == 0, row.first);
    EXPECT(error.line == row.line && error.column == row.column, row.first);
    EXPECT(error.words == std::string(row.words), error.words);
    try {
        none.value();
        EXPECT(false, "it throws");
    } catch (const oer::modules_failure &thrown) {
        EXPECT(thrown.what() == std::string(row.words) && thrown.error().line == row.line, thrown.what());
    }
    try {
        std::move(none).value();
        EXPECT(false, "it throws");
    } catch (const oer::failure &thrown) {
        EXPECT(thrown.what() == std::string(row.words) && thrown.error().why == row.why, thrown.what());
    }
}

// The types of modules, from texts of each kind.
static void test_modules(const std::string &folder) {
    const std::vector<std::string> texts = { contents(folder + "/../modules/messages.asn"), contents(folder + "/../modules/common.asn") };
    const bytes message = from_hex("80000000000100000002"), deep = from_hex("01818000");
    oer::types types = oer::types::from_modules(texts).value();
    EXPECT(types.check_whole("Message", message).ok(), "a message");
    EXPECT(copy(types.from_json("Message", "{\"report\":{\"position\":{\"north\":1,\"east\":2}}}").value()) == message, "JSON");
    EXPECT(is_only(types.check("Log", message).error(), OER_UNNAMED), "a type that is refused");
    EXPECT(types.check("Forwarded", deep).error().why == OER_INTEGER_RANGE, "as deep as it fits");
    EXPECT(types.check_nesting("Forwarded", deep).ok(), "as deep as it fits");
    const char *const letters[] = { texts[0].c_str(), texts[1].c_str() };
    types = oer::types::from_modules(letters, 1).value();
    EXPECT(types.check("Forwarded", deep).error().why == OER_UNKNOWN_ALTERNATIVE, "nesting 1");
    const oer::error nested = types.check_nesting("Forwarded", deep).error();
    EXPECT(nested.name() == std::string("Nesting") && nested.why == OER_NESTING && nested.place == 3, "nesting 1");
    EXPECT(oer::types::from_modules({ texts[1], texts[0].c_str() }).value().check_whole("Message", message).ok(), "a list");
    EXPECT(oer::types::from_modules(std::array<oer::text_in, 1>{ { texts[1] } }).ok(), "std::array");
    const char *null = nullptr;
    oer::result<oer::types, oer::modules_error> none = oer::types::from_modules({ oer::text_in("A"), oer::text_in(null) });
    EXPECT(is_only(none.error(), OER_OUTSIDE) && none.error().words[0] == 0, "no text");
    EXPECT(oer::types::from_modules({ oer::text_in(null, 0) }).error().status == OER_REJECTED, "an empty text");
    fail_new = true;
    none = oer::types::from_modules(texts);
    fail_new = false;
    EXPECT(is_only(none.error(), OER_MEMORY) && none.error().text == 0, "memory");
}

// Types in place of others, by reading and by moving.
static void test_kept_types() {
    const bytes octets(1, 0xff);
    oer::types types = types_of("BOOLEAN"), other = types_of("BOOLEAN"), none;
    EXPECT(types.read("B ::= BOOLEAN").ok(), "types in place of others");
    EXPECT(is_only(types.check("A", octets).error(), OER_UNNAMED), "the earlier types are gone");
    EXPECT(types.check("B", octets).ok(), "the new types");
    other = std::move(types);
    EXPECT(other.check("B", octets).ok(), "types that were moved");
    EXPECT(is_only(types.check("B", octets).error(), OER_NO_TYPES), "moved from");
    other = std::move(none);
    EXPECT(is_only(other.check("B", octets).error(), OER_NO_TYPES), "none were moved");
    EXPECT(types.read("A ::= BOOLEAN").ok() && types.check("A", octets).ok(), "read after it was moved from");
}

// Types that two have.
static void test_shared_types() {
    const bytes octets(1, 0xff);
    oer::types types = types_of("BOOLEAN"), none;
    EXPECT(is_only(none.share().error(), OER_NO_TYPES), "no types to share");
    oer::result<oer::types> made = types.share();
    test_value(made);
    oer::types other = std::move(made).value();
    EXPECT(types.read("B ::= BOOLEAN").ok() && other.check("A", octets).ok(), "the shared types");
    types.free();
    EXPECT(other.check("A", octets).ok(), "types that the other freed");
#ifndef FAIL_MEMORY
    std::vector<std::thread> threads;
    std::atomic<int> good(0);
    for (int i = 0; i < 4; i++) {
        threads.emplace_back([&good](oer::types own) {
            for (int turn = 0; turn < 10000; turn++) good += own.canon("A", bytes(1, 0x01)).value()[0] == 0xff;
        }, other.share().value());
    }
    for (std::thread &thread : threads) thread.join();
    EXPECT(good == 40000, "threads");
#endif
}

// ---- arguments of each kind

static void test_arguments() {
    oer::types types = types_of("OCTET STRING");
    const std::uint8_t array[] = { 1, 5 };
    std::array<std::uint8_t, 2> other = { { 1, 5 } }, out = { { 0, 0 } };
    const std::uint8_t *null = nullptr;
    const std::string name = "A";
    EXPECT(types.check("A", array).value().octets == 2, "an array");
    EXPECT(types.check(name, other).value().octets == 2, "std::array and std::string");
    EXPECT(types.check(oer::text_in("Ab", 1), oer::octets_in(array, 2)).value().octets == 2, "numbers");
    EXPECT(types.check("A", bytes()).error().why == OER_END, "no octets");
    EXPECT(types.check("A", oer::octets_in()).error().why == OER_END, "no octets");
    const char *text = nullptr;
    char *letters = nullptr;
    EXPECT(types.check("A", { null, 0 }).error().why == OER_END, "no octets");
    EXPECT(oer::octets_in().data() && oer::text_in(text, 0).data() && oer::text_out(letters, 0).data(), "null");
    EXPECT(types.canon_into("A", array, out).value().size == 2 && out[1] == 5, "std::array");
    EXPECT(types.canon_into("A", array, oer::octets_out()).error().needed == 2, "no buffer");
    oer::octets made = types.canon("A", array).value(), moved = std::move(made);
    EXPECT(made.empty() && made.read() == 0 && moved.size() == 2 && moved[1] == 5 && moved.read() == 2, "moved");
    made = std::move(moved);
    EXPECT(moved.empty() && copy(made) == bytes(array, array + 2) && made.read() == 2, "moved");
    EXPECT(types.check("A", made).value().octets == 2, "oer::octets");
    EXPECT(copy(types.from_json("A", types.to_json("A", made).value()).value()) == copy(made), "oer::text");
    EXPECT(oer::octets().size() == 0 && oer::octets().begin() == oer::octets().end(), "no octets");
#ifdef __cpp_lib_span
    std::span<const std::uint8_t> span = made.span();
    EXPECT(span.size() == 2 && types.check("A", span).value().octets == 2, "std::span");
    EXPECT(types.canon_into("A", span, std::span<std::uint8_t>(out)).value().size == 2, "std::span");
#endif
#ifdef __cpp_lib_string_view
    EXPECT(types.check(std::string_view("Ab").substr(0, 1), array).ok(), "std::string_view");
#endif
}

// The octets as elements of another type, in C.
template <class C>
static C filled_with(const bytes &octets) {
    C made(octets.size(), typename C::value_type());
    for (std::size_t i = 0; i < octets.size(); i++) made[i] = static_cast<typename C::value_type>(octets[i]);
    return made;
}

// That each call takes the elements of C as octets, each octet as it is, also above 7f; and writes them.
template <class C>
static void test_elements(const char *what) {
    oer::types types = types_of("SEQUENCE {a OCTET STRING}");
    const bytes octets = { 0x81, 0x03, 0x00, 0x80, 0xff }, canonical = { 0x03, 0x00, 0x80, 0xff }, part = { 0x03, 0x00, 0x80, 0xff };
    const C given = filled_with<C>(octets);
    const oer::octets_in in = given;
    EXPECT(in.size() == octets.size() && std::equal(octets.begin(), octets.end(), in.data()), what);
    EXPECT(types.check("A", given)->octets == 5 && !types.check("A", given)->canonical, what);
    EXPECT(types.check("A", C(given)).ok() && types.check("A", C()).error().why == OER_END, what);
    EXPECT(types.check_whole("A", filled_with<C>(canonical)).ok(), what);
    EXPECT(types.check_whole("A", given).error().status == OER_NOT_CANONICAL, what);
    EXPECT(copy(types.canon("A", given).value()) == canonical, what);
    EXPECT(copy(types.part("A", filled_with<C>(canonical), "c0").value()) == part, what);
    EXPECT(types.part_at("A", given, "c0")->length == 5, what);
    EXPECT(copy(types.part_named("A", filled_with<C>(canonical), "a").value()) == part, what);
    EXPECT(types.part_named_at("A", given, "a")->length == 5, what);
    EXPECT(copy(types.to_json("A", given).value()) == from_text("{\"a\":\"0080ff\"}"), what);
    const oer::message all = { 0, 5 };
    oer_checked answer = {};
    EXPECT(types.check_many("A", given, { &all, 1 }, { &answer, 1 }).ok() && answer.octets == 5, what);
}

// That each call writes into the elements of C.
template <class C>
static void test_written_elements(const char *what) {
    oer::types types = types_of("OCTET STRING");
    const bytes octets = { 0x02, 0x80, 0xff, 0x55 };
    const C given = filled_with<C>(octets), want = filled_with<C>({ 0x02, 0x80, 0xff, 0x00 });
    C canon(4, typename C::value_type()), part = canon, made = canon;
    EXPECT(types.canon_into("A", given, canon)->size == 3 && canon == want, what);
    EXPECT(types.from_json_into("A", "\"80ff\"", made)->size == 3 && made == want, what);
    types = types_of("SEQUENCE {a OCTET STRING}");
    EXPECT(types.part_into("A", given, "c0", part)->size == 3 && part == want, what);
}

static void test_octets_in_containers() {
    test_elements<bytes>("std::uint8_t");
    test_elements<std::vector<char>>("char");
    test_elements<std::vector<signed char>>("signed char");
    test_elements<std::vector<unsigned char>>("unsigned char");
    test_elements<std::string>("std::string");
    test_written_elements<bytes>("std::uint8_t");
    test_written_elements<std::vector<char>>("char");
    test_written_elements<std::vector<signed char>>("signed char");
    std::array<char, 2> out = { { 0, 0 } };
    oer::types types = types_of("OCTET STRING");
    EXPECT(types.canon_into("A", std::array<signed char, 2>{ { 1, -1 } }, out)->size == 2 && out[1] == static_cast<char>(-1), "std::array");
#ifdef __cpp_lib_byte
    test_elements<std::vector<std::byte>>("std::byte");
    test_written_elements<std::vector<std::byte>>("std::byte");
    test_written_elements<std::string>("std::string");
#endif
#ifdef __cpp_lib_string_view
    const std::string text("\x81\x02\x00\xff", 4);
    EXPECT(types.check("A", std::string_view(text)).value().octets == 4, "std::string_view");
#endif
#ifdef __cpp_lib_span
    const std::array<std::byte, 2> raw = { { std::byte(1), std::byte(0xff) } };
    EXPECT(types.check("A", std::span<const std::byte>(raw)).value().octets == 2, "std::span");
    EXPECT(types.check("A", std::as_bytes(std::span<const char>(out))).value().octets == 2, "std::span");
    EXPECT(types.canon_into("A", raw, std::span<char>(out)).value().size == 2, "std::span");
#endif
}

// A null pointer has no elements. With a number other than 0 it is not read, and nothing is written to it.
static void test_null_pointers() {
    oer::types types = types_of("SEQUENCE OF BOOLEAN");
    const std::uint8_t array[] = { 1, 1, 0xff }, *octets = nullptr;
    const oer::message all = { 0, 3 }, *messages = nullptr;
    std::uint8_t *out = nullptr;
    char *characters = nullptr;
    const char *text = nullptr;
    oer_checked answer = {}, *answers = nullptr;
    const oer::octets_in none(octets, 5);
    const oer::text_in no_text(text, 5);
    EXPECT(none.size() == 0 && none.missing() && none.data(), "null");
    EXPECT(!oer::octets_in(octets, 0).missing() && !oer::octets_in(array).missing(), "octets");
    EXPECT(oer::text_in(text).missing() && !oer::text_in("").missing(), "texts");
    EXPECT(oer::octets_in(oer::octets_out(out, 5)).missing() && oer::octets_in(no_text).missing(), "a slice of a slice");
    EXPECT(!oer::octets_in(oer::octets_out(out, 0)).missing() && !oer::octets_in(oer::text_in("A")).missing(), "a slice of a slice");
    EXPECT(is_only(types.check("A", oer::octets_out(out, 5)).error(), OER_OUTSIDE), "a slice of a slice");

    oer::error small = types.canon_into("A", array, { out, 64 }).error();
    EXPECT(small.status == OER_ROOM && small.needed == 3, "no buffer");
    small = types.part_into("A", array, "i0", { out, 64 }).error();
    EXPECT(small.status == OER_ROOM && small.needed == 1, "no buffer");
    small = types.to_json_into("A", array, { characters, 64 }).error();
    EXPECT(small.status == OER_ROOM && small.needed == 6, "no buffer");
    small = types.from_json_into("A", "[true]", { out, 64 }).error();
    EXPECT(small.status == OER_ROOM && small.needed == 3, "no buffer");
    small = types.explain_json_into("A", "[5]", { characters, 64 }).error();
    EXPECT(small.status == OER_ROOM && small.needed > 0, "no buffer");
    small = types.explain_octets_into("A", { array, 1 }, { characters, 64 }).error();
    EXPECT(small.status == OER_ROOM && small.needed > 0, "no buffer");
    small = oer::types::explain_types_into("$", { characters, 64 }).error();
    EXPECT(small.status == OER_ROOM && small.needed > 0, "no buffer");
    small = types.check_many("A", array, { &all, 1 }, { answers, 1 }).error();
    EXPECT(small.status == OER_ROOM && small.needed == 1, "no answers");

    EXPECT(is_only(types.read(no_text).error(), OER_OUTSIDE), "no definitions");
    EXPECT(is_only(types.read(text).error(), OER_OUTSIDE), "no definitions");
    EXPECT(is_only(oer::types::of(no_text).error(), OER_OUTSIDE), "no definitions");
    EXPECT(is_only(oer::types::explain_types(no_text).error(), OER_OUTSIDE), "no definitions");
    for (int turn = 0; turn < 2; turn++) {
        oer::text_in name = turn ? oer::text_in("A") : no_text;
        oer::octets_in given = turn ? none : oer::octets_in(array);
        oer::text_in json = turn ? no_text : oer::text_in("[true]");
        std::uint8_t room[8];
        char letters[8];
        EXPECT(is_only(types.check(name, given).error(), OER_OUTSIDE), "check");
        EXPECT(is_only(types.check_whole(name, given).error(), OER_OUTSIDE), "check_whole");
        EXPECT(is_only(types.check_nesting(name, given).error(), OER_OUTSIDE), "check_nesting");
        EXPECT(is_only(types.check_many(name, given, { &all, 1 }, { &answer, 1 }).error(), OER_OUTSIDE), "check_many");
        EXPECT(is_only(types.canon(name, given).error(), OER_OUTSIDE), "canon");
        EXPECT(is_only(types.canon_into(name, given, room).error(), OER_OUTSIDE), "canon_into");
        EXPECT(is_only(types.part(name, given, "i0").error(), OER_OUTSIDE), "part");
        EXPECT(is_only(types.part_into(name, given, "i0", room).error(), OER_OUTSIDE), "part_into");
        EXPECT(is_only(types.part_at(name, given, "i0").error(), OER_OUTSIDE), "part_at");
        EXPECT(is_only(types.part_named(name, given, "0").error(), OER_OUTSIDE), "part_named");
        EXPECT(is_only(types.part_named_into(name, given, "0", room).error(), OER_OUTSIDE), "part_named_into");
        EXPECT(is_only(types.part_named_at(name, given, "0").error(), OER_OUTSIDE), "part_named_at");
        EXPECT(is_only(types.to_json(name, given).error(), OER_OUTSIDE), "to_json");
        EXPECT(is_only(types.to_json_into(name, given, letters).error(), OER_OUTSIDE), "to_json_into");
        EXPECT(is_only(types.from_json(name, json).error(), OER_OUTSIDE), "from_json");
        EXPECT(is_only(types.from_json_into(name, json, room).error(), OER_OUTSIDE), "from_json_into");
        EXPECT(is_only(types.explain_json(name, json).error(), OER_OUTSIDE), "explain_json");
        EXPECT(is_only(types.explain_json_into(name, json, letters).error(), OER_OUTSIDE), "explain_json_into");
        EXPECT(is_only(types.explain_octets(name, given).error(), OER_OUTSIDE), "explain_octets");
        EXPECT(is_only(types.explain_octets_into(name, given, letters).error(), OER_OUTSIDE), "explain_octets_into");
        EXPECT(is_only(oer::types::explain_types_into(no_text, letters).error(), OER_OUTSIDE), "explain_types_into");
    }
    EXPECT(is_only(types.check_many("A", array, { messages, 1 }, { &answer, 1 }).error(), OER_OUTSIDE), "no messages");
    EXPECT(is_only(types.part("A", array, text).error(), OER_OUTSIDE), "no path");
    EXPECT(is_only(types.part_into("A", array, text, { out, 0 }).error(), OER_OUTSIDE), "no path");
    EXPECT(is_only(types.part_at("A", array, text).error(), OER_OUTSIDE), "no path");
    EXPECT(is_only(types.part_named("A", array, text).error(), OER_OUTSIDE), "no names");
    EXPECT(is_only(types.part_named_into("A", array, text, { out, 0 }).error(), OER_OUTSIDE), "no names");
    EXPECT(is_only(types.part_named_at("A", array, text).error(), OER_OUTSIDE), "no names");
    EXPECT(types.check("A", array).ok(), "the types are as before");
}

// A result whose answer was moved out of it is not ok.
static void test_moved_results() {
    const std::uint8_t array[] = { 1, 1, 0xff };
    oer::types types = types_of("SEQUENCE OF BOOLEAN");
    oer::result<oer::octets> made = types.canon("A", array), other = std::move(made);
    EXPECT(is_only(made.error(), oer::moved_from) && made.error().name() == std::string("Moved"), "moved");
    EXPECT(other.ok() && other->size() == 3 && (*other)[1] == 1, "moved to");
    test_value(made);
    made = std::move(other);
    EXPECT(is_only(other.error(), oer::moved_from) && made->size() == 3, "moved back");
    oer::octets octets = std::move(made).value();
    EXPECT(is_only(made.error(), oer::moved_from) && octets.size() == 3, "the answer is moved out");
    made = types.canon("A", array);
    EXPECT(made.ok() && (*std::move(made)).size() == 3, "the answer is moved out");
    EXPECT(is_only(made.error(), oer::moved_from), "the answer is moved out");
    oer::result<oer::octets> rejected = types.canon("A", oer::octets_in()), same = std::move(rejected);
    EXPECT(rejected.error().why == OER_END && same.error().why == OER_END, "an error stays");
    oer::result<oer::checked> checked = types.check("A", array), copied = checked;
    EXPECT(checked.ok() && copied.ok() && copied->octets == 3 && copied->canonical, "numbers are copied");
    oer::result<oer::types> shared = types.share();
    EXPECT((*shared).check("A", array)->octets == 3 && shared->check("A", array).ok(), "types in a result");
    oer::types held = std::move(shared).value();
    EXPECT(held.check("A", array).ok() && !shared, "types in a result");
}

// A JSON that is longer than the first buffer is made with a second.
static void test_growth() {
    oer::types types = types_of("SEQUENCE OF SEQUENCE {a-long-name-of-a-component BOOLEAN}");
    bytes octets = { 1, 100 };
    octets.insert(octets.end(), 100, 0xff);
    oer::result<oer::text> json = types.to_json("A", octets);
    EXPECT(json.value().size() == 100 * 36 + 1 && json.value().read() == octets.size(), "JSON");
    EXPECT(copy(types.from_json("A", json.value()).value()) == octets, "octets");
    std::string names = "SEQUENCE {n NULL";
    for (char letter = 'a'; letter < 'h'; letter++) names += ", " + std::string(200, letter) + " NULL";
    types = types_of(names + "}");
    EXPECT(types.explain_json("A", "{\"m\":null}").value().size() > 7 * 200, "lines");
}

// ---- the certificate of the example

static void test_certificate(const std::string &folder) {
    oer::types types = oer::types::of(contents(folder + "/types.asn")).value();
    bytes certificate = from_hex(contents(folder + "/certificate-rsu.hex"));
    bytes basic = from_hex(contents(folder + "/certificate-rsu-basic.hex"));
    bytes signed_part = from_hex(contents(folder + "/tbs-rsu.hex"));
    oer::checked checked = types.check("Certificate", certificate).value();
    EXPECT(checked.octets == 230 && checked.canonical, "certificate");
    checked = types.check("Certificate", basic).value();
    EXPECT(checked.octets == 236 && !checked.canonical, "basic");
    EXPECT(copy(types.canon("Certificate", basic, 236).value()) == certificate, "canon");
    EXPECT(types.canon("Certificate", basic, 235).error().why == OER_LIMIT, "limit");
    EXPECT(copy(types.part("Certificate", certificate, "c3").value()) == signed_part, "toBeSigned");
    EXPECT(copy(types.part_named("Certificate", certificate, "toBeSigned").value()) == signed_part, "toBeSigned");
    oer::located place = types.part_at("Certificate", certificate, "c3").value();
    EXPECT(place.at == 12 && place.length == 152 && place.read == 230, "toBeSigned");
    const oer::message &message = place;
    oer_checked alone;
    EXPECT(types.check_many("Certificate", certificate, { &message, 1 }, { &alone, 1 }).ok(), "a part as a message");
    EXPECT(types.check_whole("Certificate", certificate).ok(), "the whole certificate");
    EXPECT(types.check_whole("Certificate", basic).error().name() == std::string("NotCanonical"), "the whole basic one");
    certificate.push_back(0);
    EXPECT(types.check_whole("Certificate", certificate).error().name() == std::string("Follows"), "an octet follows");
    EXPECT(types.check_whole("Certificate", certificate).error().place == 230, "an octet follows");
    certificate.pop_back();
    oer::text json = types.to_json("Certificate", basic).value();
    EXPECT(copy(types.from_json("Certificate", json).value()) == certificate, "json");
}

// ---- the numbers of the header

// The name as the header has it: LengthForm is LENGTH_FORM there.
static std::string spelt(const char *name) {
    std::string made;
    for (; *name; name++) {
        if (*name >= 'A' && *name <= 'Z' && !made.empty()) made += '_';
        made += *name >= 'a' && *name <= 'z' ? static_cast<char>(*name - 'a' + 'A') : *name;
    }
    return made;
}

static std::string name_of(std::uint32_t status, std::uint32_t why, oer::subject of) {
    oer::error error = { status, why, 0, 0, of };
    return spelt(error.name());
}

static void test_numbers(const std::string &file) {
    std::istringstream lines(contents(file));
    std::string line, kind, name;
    std::uint32_t number, tested = 0, statuses = 0;
    while (std::getline(lines, line)) {
        std::istringstream words(line);
        words >> kind;
        if (kind != "number") continue;
        words >> name >> number;
        EXPECT(name.compare(0, 4, "OER_") == 0, name);
        name = name.substr(4);
        bool status = statuses <= OER_FOLLOWS;
        oer::subject of = oer::subject::octets;
        if (name.compare(0, 5, "TEXT_") == 0) of = oer::subject::definitions;
        if (name.compare(0, 5, "JSON_") == 0) of = oer::subject::json;
        if (name.compare(0, 8, "MODULES_") == 0) of = oer::subject::modules;
        if (of != oer::subject::octets) name = name.substr(name.find('_') + 1);
        if (status) EXPECT(name == "REJECTED" || name_of(number, 0, of) == name, name);
        else EXPECT(name_of(OER_REJECTED, number, of) == name, name);
        statuses += status;
        tested++;
    }
    EXPECT(tested == 60, std::to_string(tested) + " numbers");
    EXPECT(name_of(OER_REJECTED, 0, oer::subject::octets) == "UNKNOWN", "no reason");
    EXPECT(name_of(OER_REJECTED, 99, oer::subject::json) == "UNKNOWN", "no reason");
    EXPECT(name_of(99, 0, oer::subject::json) == "UNKNOWN", "no status");
    EXPECT(oer::version() == OER_VERSION_NUMBER, "the version");
}

// ---- random octets

static std::uint64_t random_state = 88172645463325252u;

static std::uint32_t random_below(std::uint32_t bound) {
    random_state ^= random_state << 13;
    random_state ^= random_state >> 7;
    random_state ^= random_state << 17;
    return static_cast<std::uint32_t>(random_state >> 33) % bound;
}

// Small octets, so that many strings are encodings; or an octet of any kind.
static std::uint8_t random_octet() {
    static const std::uint8_t common[] = { 0x00, 0x01, 0x02, 0x03, 0x80, 0x81, 0x82, 0xff, 0x20, 0x60 };
    return random_below(4) ? common[random_below(sizeof common)] : static_cast<std::uint8_t>(random_below(256));
}

// How many strings are encodings, and how many of these are canonical.
static long encodings, canonicals;

// That check and canon agree on the octets.
static void compare(oer::types &types, oer::octets_in given) {
    oer::result<oer::checked> checked = types.check("A", given);
    oer::result<oer::octets> canon = types.canon("A", given);
    EXPECT(canon.error().status == checked.error().status && canon.error().why == checked.error().why, "error");
    EXPECT(canon.error().place == checked.error().place && canon.error().place <= given.size(), "place");
    if (!checked) {
        EXPECT(checked.error().status == OER_REJECTED && checked.error().name() != std::string("Unknown"), "a reason");
        return;
    }
    const oer::octets &made = canon.value();
    encodings++;
    canonicals += checked.value().canonical;
    EXPECT(made.read() == checked.value().octets && made.read() <= given.size(), "octets");
    bool same = made.size() == made.read() && std::equal(made.begin(), made.end(), given.data());
    EXPECT(same == checked.value().canonical, "canonical");
    oer::result<oer::checked> again = types.check("A", made);
    EXPECT(again.ok() && again.value().octets == made.size() && again.value().canonical, "canonical octets");
}

// The types of the vectors, each once.
static std::vector<std::string> kinds() {
    std::vector<std::string> found;
    for (const vector &row : vectors)
        if (std::find(found.begin(), found.end(), row.type) == found.end()) found.push_back(row.type);
    return found;
}

static void test_random(long strings) {
    const guarded memory;
    const std::vector<std::string> all = kinds();
    long tried = 0;
    for (std::size_t i = 0; i < all.size(); i++) {
        oer::types types = types_of(all[i]);
        for (; tried < strings * static_cast<long>(i + 1) / static_cast<long>(all.size()); tried++) {
            bytes octets(random_below(25));
            std::generate(octets.begin(), octets.end(), random_octet);
            compare(types, memory.with(octets));
        }
    }
    EXPECT(tried == strings && strings > 0, "strings");
    EXPECT(encodings > strings / 10 && encodings < strings, "encodings");
    EXPECT(canonicals > 0 && canonicals < encodings, "canonical encodings");
}

int main(int count, char **words) {
    if (count != 4) {
        std::puts("usage: test FOLDER STRINGS TABLE");
        return 2;
    }
    for (const vector &row : vectors) {
        test_vector(row);
        if (row.task == CHECK) test_many(row);
    }
    for (const place &row : places) test_place(row, &oer::types::part_at);
    for (const place &row : named_places) {
        test_place(row, &oer::types::part_named_at);
        test_named(row);
    }
    for (const vector &row : vectors) test_memory(row);
    for (const rejected_text &row : rejected_texts) test_rejected_text(row);
    for (const explained_text &row : explained_texts) test_explained_text(row);
    test_parts();
    for (const modules_row &row : rejected_modules) test_rejected_modules(row);
    test_modules(words[1]);
    test_kept_types();
    test_shared_types();
    test_arguments();
    test_octets_in_containers();
    test_null_pointers();
    test_moved_results();
    test_growth();
    test_certificate(words[1]);
    test_numbers(words[3]);
    test_random(std::atol(words[2]));
    return differs;
}
