/* oer.hpp: encodings of ASN.1 values by the octet encoding rules (ITU-T X.696), from C++11 to C++20.
 *
 * A class over the calls of oer.h, all of it in this header. An oer::types holds the types of definitions,
 * or of published modules, that were read. By the types in it octets are checked, rewritten as canonical
 * octets, taken apart, shown as JSON, and made from JSON. A program that includes this header is linked with
 * liboer, as from C.
 *
 *     oer::types types = oer::types::of("Flags ::= SEQUENCE OF BOOLEAN").value();
 *     auto made = types.canon("Flags", octets);
 *     if (made) send(made.value().data(), made.value().size());
 *     else log(made.error().name(), made.error().place);
 *
 * Results
 *
 * A call returns an oer::result by value: the answer, or an oer::error with the status, the reason and
 * the place. `ok()` tells which. No call throws. `value()`, `*` and `->` of a result give its answer;
 * where it has an error they throw an oer::failure, or end the program by std::terminate in a file that
 * is compiled without exceptions. The types are the same in both kinds of file, which may be linked
 * together. From C++17 on the compiler warns where a result is not looked at. The error of
 * types::from_modules() is an oer::modules_error, which has words too, and is thrown as an
 * oer::modules_failure.
 *
 * Octets and texts that a call makes are returned in an oer::octets or an oer::text, which own them.
 * The calls whose names end in _into write into a buffer of the caller's, and this header then
 * allocates nothing.
 *
 * Arguments
 *
 * Octets are taken as an oer::octets_in: a pointer to std::uint8_t with a number, an array of these, or
 * whatever has data() and size() and elements of one octet: std::uint8_t, char, signed char and, from C++17
 * on, std::byte. So std::vector of each, std::array, std::string and oer::octets are taken, std::string_view
 * from C++17 on, and std::span from C++20 on. A literal is not, since it has a zero octet at its end, and
 * elements of more octets are not. A buffer for octets is an oer::octets_out, of the same elements, where
 * data() lets them be written. Texts are taken as an oer::text_in: text that ends with a zero octet, a
 * pointer with a number, std::string, std::string_view, oer::text. They are UTF-8. An argument is read
 * during the call only, and nothing keeps a pointer to it.
 *
 * A pointer may be null where the number is 0. With another number the call is rejected, as it is where
 * the pointer to a text that ends with a zero octet is null: the status is OER_OUTSIDE of what would be
 * read, and OER_ROOM of a buffer. The constants 0 and nullptr are not taken for pointers, so that {0, 5}
 * doesn't compile.
 *
 * Lengths and places are numbers of octets.
 *
 * Threads
 *
 * An oer::types is in one call at a time. That holds for check() as well, which is not const for this
 * reason. The next call may come from another thread, where the one call happens before the other, as C++
 * has it: by a lock, the start or join of a thread, a queue, an atomic that is stored with release and
 * loaded with acquire. For calls at the same time each thread has an oer::types of its own: share() makes
 * one more of types that are in memory once. Results, errors, octets and texts may be handed to other
 * threads, and read by several at once.
 *
 * No call is made from a signal handler, or in the child of a fork of a process with threads. */
#ifndef OER_HPP
#define OER_HPP

#include "oer.h"

#include <cstddef>
#include <cstdint>
#include <cstring>
#include <exception>
#include <initializer_list>
#include <memory>
#include <new>
#include <stdexcept>
#include <type_traits>
#include <utility>

#ifdef __has_include
#if __has_include(<version>)
#include <version>
#endif
#endif
#ifdef __cpp_lib_span
#include <span>
#endif

#if __cplusplus >= 201703L || (defined(_MSVC_LANG) && _MSVC_LANG >= 201703L)
#define OER_HPP_NODISCARD [[nodiscard]]
#else
#define OER_HPP_NODISCARD
#endif
#if defined(__cpp_exceptions) || defined(__EXCEPTIONS) || defined(_CPPUNWIND)
#define OER_HPP_THROWS
#endif

namespace oer {

/* The version of the library that the program was linked with, as the number OER_VERSION_NUMBER is of
 * the header. */
inline std::uint32_t version() noexcept { return oer_version(); }

/* What a call was reading when it was rejected. It says of which enumeration `why` of an error is. */
enum class subject {
    octets,      /* octets: an oer_reason */
    definitions, /* definitions: an oer_text_reason */
    json,        /* JSON: an oer_json_reason */
    modules      /* texts of modules: an oer_modules_reason */
};

/* The status of a result whose answer was moved out of it. No call answers it. */
constexpr std::uint32_t moved_from = 0xffffffff;

/* Why a call has no answer. */
struct error {
    /* An oer_status, or moved_from. OER_OK stands for no error. */
    std::uint32_t status;
    /* At OER_REJECTED the reason, of the enumeration that `of` names. Else 0. */
    std::uint32_t why;
    /* At OER_REJECTED the place. Of octets: how many had been looked at. Of definitions: the octet of
     * the text at which the token or type begins that shows the fault, or from which on it is not UTF-8.
     * Of modules: the octet of the text at which the fault shows, or from which on it is not UTF-8; 0
     * where it is in none of the texts. Of JSON: 0. At OER_NO_JSON the octet of the text at which reading
     * stopped, or from which on it is not UTF-8, as oer_from_json says (oer.h). At OER_NO_STEP, OER_ABSENT,
     * OER_NOT_CANONICAL and OER_FOLLOWS how many octets the encoding has. With any other status 0. */
    std::uint64_t place;
    /* At OER_ROOM how many octets the buffer has to have. Else 0. */
    std::uint64_t needed;
    /* What the call was reading. */
    subject of;

    /* The name of the status, and at OER_REJECTED that of the reason, as the documents have them:
     * "Memory", "End", "LengthForm". It is kept for as long as the program runs. */
    const char *name() const noexcept;
};

/* Why modules are not read. */
struct modules_error : error {
    /* At OER_REJECTED which of the texts the fault is in, its line, and its column in characters, all
     * counted from 1. 0 where it is in none of the texts. Line and column are also 0 where the text is not
     * UTF-8. Of any other status 0. */
    std::uint64_t text, line, column;
    /* At OER_REJECTED the fault in words, on one line, with a zero octet at the end. Else "". */
    char words[256];
};

/* Whether elements of the type are taken as octets. */
template <class T>
struct is_octet : std::false_type {};
template <>
struct is_octet<std::uint8_t> : std::true_type {};
template <>
struct is_octet<char> : std::true_type {};
template <>
struct is_octet<signed char> : std::true_type {};
#ifdef __cpp_lib_byte
template <>
struct is_octet<std::byte> : std::true_type {};
#endif

/* How what data() returns, a P, is a pointer to elements T: as it is; or, where T is an octet, as one to
 * octets. What is const stays const. There is no at() where it is neither. */
template <class P, class T, class = void>
struct elements {};
template <class P, class T>
struct elements<P, T, typename std::enable_if<std::is_convertible<P, T *>::value>::type> {
    static T *at(P from) noexcept { return from; }
};
template <class U, class T>
struct elements<U *, T,
                typename std::enable_if<std::is_same<typename std::remove_const<T>::type, std::uint8_t>::value &&
                                        is_octet<typename std::remove_const<U>::type>::value &&
                                        !std::is_convertible<U *, T *>::value &&
                                        (std::is_const<T>::value || !std::is_const<U>::value)>::type> {
    static T *at(U *from) noexcept { return reinterpret_cast<T *>(from); }
};

/* Octets or texts of the caller's: a pointer and a number of elements. T is const for what is read. */
template <class T>
class slice {
public:
    /* No elements. */
    slice() noexcept : at_(nullptr), size_(0) {}

    /* `size` elements from `at` on. Those that a call reads are initialized. The pointer may be null where
     * the size is 0; with another size it is missing(). */
    template <class P, class = typename std::enable_if<std::is_pointer<P>::value &&
                                                       std::is_convertible<P, T *>::value>::type>
    slice(P at, std::size_t size) noexcept : at_(at), size_(size) {}

    /* A null constant is not taken for a pointer: {0, 5} would be one. */
    slice(std::nullptr_t, std::size_t) = delete;

    /* All elements of an array. */
    template <std::size_t N>
    slice(T (&array)[N]) noexcept : at_(array), size_(N) {}

    /* All elements of whatever has data() and size(), as a vector or a span. A slice of octets is made of
     * any whose elements are octets (is_octet). It has to live, and its elements have to stay where they
     * are, for as long as the slice is used. Of another slice that is missing() a missing() one is made. */
    template <class C,
              class How = elements<decltype(std::declval<C &>().data()), T>,
              class = decltype(How::at(std::declval<C &>().data())),
              class = typename std::enable_if<
                  !std::is_same<typename std::decay<C>::type, slice>::value &&
                  std::is_convertible<decltype(std::declval<C &>().size()), std::size_t>::value>::type>
    slice(C &&from) noexcept : at_(How::at(from.data())), size_(from.size()) {
        if (lacks(std::addressof(from))) *this = slice(static_cast<T *>(nullptr), 1);
    }

    /* The first element. It is never null: where there are no elements it points to one that is not
     * used, as oer.h wants it. */
    T *data() const noexcept { return at_ ? at_ : nothing(); }

    /* How many elements there are. None are where the pointer is null. */
    std::size_t size() const noexcept { return at_ ? size_ : 0; }

    /* Whether there should be elements, and the pointer is null. */
    bool missing() const noexcept { return !at_ && size_ != 0; }

private:
    /* Whether it is a slice that is missing(). */
    template <class U>
    static bool lacks(const slice<U> *from) noexcept {
        return from->missing();
    }
    static bool lacks(const void *) noexcept { return false; }

    static T *nothing() noexcept {
        static typename std::remove_const<T>::type element = {};
        return &element;
    }

    T *at_;
    std::size_t size_;
};

/* Octets that a call reads, and octets and texts that it writes. */
typedef slice<const std::uint8_t> octets_in;
typedef slice<std::uint8_t> octets_out;
typedef slice<char> text_out;

/* A text that a call reads. */
class text_in : public slice<const char> {
public:
    /* `size` octets from `at` on. */
    template <class P, class = typename std::enable_if<std::is_pointer<P>::value &&
                                                       std::is_convertible<P, const char *>::value>::type>
    text_in(P at, std::size_t size) noexcept : slice<const char>(at, size) {}

    /* The octets up to the first zero octet. Where the pointer is null they are missing(). */
    text_in(const char *text) noexcept : slice<const char>(text, text ? std::strlen(text) : 1) {}

    /* Null constants are not taken for pointers. */
    text_in(std::nullptr_t, std::size_t) = delete;
    text_in(std::nullptr_t) = delete;

    /* All octets of whatever has data() and size(), as a string. */
    template <class C, class = typename std::enable_if<
                           !std::is_same<typename std::decay<C>::type, text_in>::value &&
                           std::is_convertible<decltype(std::declval<C &>().data()), const char *>::value>::type>
    text_in(C &&from) noexcept : slice<const char>(from.data(), from.size()) {}
};

/* Elements that a call made. It owns them, may be moved and not copied. */
template <class T>
class buffer {
public:
    /* No elements. */
    buffer() noexcept : at_(), size_(0), read_(0) {}

    /* The elements that `other` had, which has none then. */
    buffer(buffer &&other) noexcept : at_(std::move(other.at_)), size_(other.size_), read_(other.read_) {
        other.size_ = 0;
        other.read_ = 0;
    }

    /* The same, and the elements from before are freed. */
    buffer &operator=(buffer &&other) noexcept {
        buffer moved(std::move(other));
        std::swap(at_, moved.at_);
        std::swap(size_, moved.size_);
        std::swap(read_, moved.read_);
        return *this;
    }

    buffer(const buffer &) = delete;
    buffer &operator=(const buffer &) = delete;

    /* The first element. It may be null where there are none. No zero octet follows a text. */
    const T *data() const noexcept { return at_.get(); }

    /* How many elements there are. */
    std::size_t size() const noexcept { return size_; }
    bool empty() const noexcept { return size_ == 0; }

    const T *begin() const noexcept { return data(); }
    const T *end() const noexcept { return data() + size_; }
    const T &operator[](std::size_t place) const noexcept { return at_[place]; }

    /* How many octets the encoding has that was read: what canon(), part() and to_json() read of the
     * octets that they were given. 0 of the other calls. */
    std::uint64_t read() const noexcept { return read_; }

#ifdef __cpp_lib_span
    /* The elements as a span, which is valid until the buffer is changed or destroyed. */
    std::span<const T> span() const noexcept { return std::span<const T>(data(), size_); }
#endif

private:
    friend class types;

    /* Room for `room` elements, all 0. False where an allocation fails. */
    bool make(std::size_t room) noexcept {
        at_.reset(new (std::nothrow) T[room ? room : 1]());
        return at_ != nullptr;
    }

    std::unique_ptr<T[]> at_;
    std::size_t size_;
    std::uint64_t read_;
};

typedef buffer<std::uint8_t> octets;
typedef buffer<char> text;

/* What check() answers. */
struct checked {
    /* How many octets the encoding has. */
    std::uint64_t octets;
    /* Whether it is the canonical one. */
    bool canonical;
};

/* Where a message or a part is in octets: its place and its length. */
typedef oer_message message;

/* What part_at() and part_named_at() answer. */
struct located : message {
    /* How many octets the encoding has that the part is in. */
    std::uint64_t read;
};

/* What a call answers that writes into a buffer of the caller's. */
struct written {
    /* How many octets the encoding has that was read: canon_into(), part_into(), part_named_into() and
     * to_json_into(). Else 0. */
    std::uint64_t read;
    /* How many octets were written, from the first of the buffer on. Those after them are as before. */
    std::size_t size;
};

/* What value() throws where there is an error. what() is the name() of the error. */
class failure : public std::runtime_error {
public:
    explicit failure(const error &why) : std::runtime_error(why.name()), why_(why) {}

    /* The error of the result. */
    const oer::error &error() const noexcept { return why_; }

protected:
    /* The same, where what() is another text. */
    failure(const oer::error &why, const char *words) : std::runtime_error(words), why_(why) {}

private:
    oer::error why_;
};

/* The same where modules are not read. what() is the words of the error, where it has some. */
class modules_failure : public failure {
public:
    explicit modules_failure(const modules_error &why)
        : failure(why, why.words[0] ? why.words : why.name()), why_modules_(why) {}

    /* The error of the result. */
    const modules_error &error() const noexcept { return why_modules_; }

private:
    modules_error why_modules_;
};

/* What value() does where there is an error: it throws, or ends the program. Which of the two is part of
 * the name of a function that is made of value(), and so files with and without exceptions each have their
 * own. */
struct throwing {
    [[noreturn]] static void fail(const error &why);
    [[noreturn]] static void fail(const modules_error &why);
};
struct ending {
    [[noreturn]] static void fail(const error &) noexcept { std::terminate(); }
};
#ifdef OER_HPP_THROWS
inline void throwing::fail(const error &why) { throw failure(why); }
inline void throwing::fail(const modules_error &why) { throw modules_failure(why); }
typedef throwing failing;
#else
typedef ending failing;
#endif

/* An answer, or the reason why there is none, an E. It may be moved, and copied where the answer may. After
 * it was moved it is not ok(): its status is moved_from, unless it had an error, which stays. */
template <class T, class E = error>
class OER_HPP_NODISCARD result {
public:
    /* A result that has an answer. */
    result(T &&answer) noexcept : error_(), answer_(std::move(answer)) {}

    /* A result that has an error, whose status is not OER_OK. */
    result(const E &why) noexcept : error_(why), answer_() {}

    result(const result &) = default;
    result &operator=(const result &) = default;

    result(result &&other) noexcept : error_(other.error_), answer_(std::move(other.answer_)) { other.forget(); }

    result &operator=(result &&other) noexcept {
        if (this != &other) {
            error_ = other.error_;
            answer_ = std::move(other.answer_);
            other.forget();
        }
        return *this;
    }

    ~result() = default;

    /* Whether there is an answer. */
    bool ok() const noexcept { return error_.status == OER_OK; }
    explicit operator bool() const noexcept { return ok(); }

    /* The error. Where there is an answer its status is OER_OK, and all its numbers are 0. */
    const E &error() const noexcept { return error_; }

    /* The answer. Where there is an error it throws a failure, or ends the program in a file that is
     * compiled without exceptions. Of a result that is moved the answer is moved out. The argument of the
     * template is left as it is. */
    template <class How = failing>
    const T &value() const & {
        demand<How>();
        return answer_;
    }
    template <class How = failing>
    T &value() & {
        demand<How>();
        return answer_;
    }
    template <class How = failing>
    T value() && {
        demand<How>();
        forget();
        return std::move(answer_);
    }

    /* The same. */
    template <class How = failing>
    const T &operator*() const & {
        demand<How>();
        return answer_;
    }
    template <class How = failing>
    T &operator*() & {
        demand<How>();
        return answer_;
    }
    template <class How = failing>
    T operator*() && {
        demand<How>();
        forget();
        return std::move(answer_);
    }
    template <class How = failing>
    const T *operator->() const {
        demand<How>();
        return &answer_;
    }
    template <class How = failing>
    T *operator->() {
        demand<How>();
        return &answer_;
    }

private:
    template <class How>
    void demand() const {
        if (!ok()) How::fail(error_);
    }

    /* The answer has moved. */
    void forget() noexcept {
        if (ok()) error_.status = moved_from;
    }

    E error_;
    T answer_;
};

/* Definitions that were read, by their names; or none. It may be moved and not copied. It frees what it
 * holds. One call at a time.
 *
 * Every call on it except free() may have these errors, read() the last one only:
 *   OER_NO_TYPES  it has no types: none were read, they were freed, or it was moved from
 *   OER_UNNAMED   no definition has the name
 *   OER_OUTSIDE   what it would read is missing(): a null pointer with a number other than 0
 * The further ones stand with each call. After an error the types and the caller's buffers are as
 * before. */
class types {
public:
    /* No types. */
    types() noexcept : held_() {}

    /* The types that `other` had, which has none then, as a new one. */
    types(types &&other) noexcept : held_(other.held_) { other.forget(); }

    /* The same, and the types from before are freed. */
    types &operator=(types &&other) noexcept {
        if (this != &other) {
            free();
            held_ = other.held_;
            other.forget();
        }
        return *this;
    }

    types(const types &) = delete;
    types &operator=(const types &) = delete;

    ~types() { free(); }

    /* The types of the definitions, each `Name ::= type` (docs/NOTATION.md). Errors: those of read(). */
    static result<types> of(text_in definitions, std::uint64_t parts = OER_NO_LIMIT) noexcept {
        types made;
        result<std::uint64_t> read = made.read(definitions, parts);
        if (!read.ok()) return result<types>(read.error());
        return result<types>(std::move(made));
    }

    /* Reads definitions, in place of the types that were there, if these have at most `parts` parts together, and
     * hold no more octets than these have room for (docs/NOTATION.md, Limits). The answer is the length of the text.
     *   OER_REJECTED  the text spells no types: `why` is an oer_text_reason, `place` the octet of the
     *                text at which the token or type begins that shows the fault
     *   OER_MEMORY   an allocation failed
     * After an error the types are those from before. */
    result<std::uint64_t> read(text_in definitions, std::uint64_t parts = OER_NO_LIMIT) noexcept {
        if (missing(definitions)) return nowhere(subject::definitions);
        oer_parsed parsed = parts == OER_NO_LIMIT
                                ? oer_types_read(&held_, definitions.data(), definitions.size())
                                : oer_types_read_within(&held_, definitions.data(), definitions.size(), parts);
        if (parsed.status == OER_OK) return result<std::uint64_t>(std::move(parsed.place));
        return result<std::uint64_t>(fault(parsed.status, parsed.why, parsed.place, 0, subject::definitions));
    }

    /* The types of published ASN.1 modules (docs/MODULES.md): those of all definitions that are understood,
     * each by its Name. `texts` has texts, each with one module or more, in any order: what a range-based
     * `for` goes through and text_in takes, as a vector of strings, or {one, other}. A type that contains
     * itself is written out so often as `nesting` says; 0 stands for the most that fits, up to 8.
     *   OER_REJECTED  a text is not UTF-8, or can't be read, or no definition is understood: `why` is an
     *                oer_modules_reason, and `text`, `line`, `column` and `words` say more
     *   OER_MEMORY   an allocation failed, here or in the library
     *   OER_OUTSIDE  a text is missing() */
    template <class Texts>
    static result<types, modules_error> from_modules(const Texts &texts, std::uint8_t nesting = 0) noexcept {
        buffer<char> all;
        buffer<message> places;
        std::size_t size = 0, count = 0;
        for (const auto &each : texts) {
            const text_in one(each);
            if (one.missing()) return modules_fault(OER_OUTSIDE);
            if (size + one.size() < size) return modules_fault(OER_MEMORY);
            size += one.size();
            count++;
        }
        if (!all.make(size) || !places.make(count)) return modules_fault(OER_MEMORY);
        size = count = 0;
        for (const auto &each : texts) {
            const text_in one(each);
            places.at_[count].at = size;
            places.at_[count++].length = one.size();
            std::memcpy(all.at_.get() + size, one.data(), one.size());
            size += one.size();
        }
        return of_modules(all.data(), size, places.data(), count, nesting);
    }
    static result<types, modules_error> from_modules(std::initializer_list<text_in> texts,
                                                     std::uint8_t nesting = 0) noexcept {
        return from_modules<std::initializer_list<text_in>>(texts, nesting);
    }

    /* Why definitions are rejected, in lines of UTF-8, each with its line feed, or nothing where they are accepted:
     * the line and the column of the place that read() answers, that line of the text with a mark under the place,
     * what is wrong there, and perhaps what may help. oer_explain_types in oer.h says more, on memory too.
     *   OER_MEMORY   an allocation failed, here or in the library
     *   OER_OUTSIDE  the text is missing() */
    static result<text> explain_types(text_in definitions) noexcept {
        if (missing(definitions)) return nowhere(subject::definitions);
        return gather<char>(room_of_lines, subject::definitions, [&](char *out, std::size_t room) {
            return oer_explain_types(definitions.data(), definitions.size(), out, room);
        });
    }

    /* The same, written into the buffer, which overlaps nothing else that is passed. No zero octet is written
     * after it.
     *   OER_ROOM     the buffer is too small: `needed` of the error says how many octets it has to have */
    static result<written> explain_types_into(text_in definitions, text_out out) noexcept {
        if (missing(definitions)) return nowhere(subject::definitions);
        return told(oer_explain_types(definitions.data(), definitions.size(), out.data(), out.size()),
                    subject::definitions);
    }

    /* Frees the types. After it there are none, and types may be read again. It may be called twice. */
    void free() noexcept { oer_types_free(&held_); }

    /* The same types once more. Each of the two is used by itself, so that another thread may call with
     * the one at the same time. They are in memory once, and are freed when nothing has them.
     *   OER_MEMORY   an allocation failed */
    result<types> share() noexcept {
        types other;
        std::uint32_t status = oer_types_share(&held_, &other.held_);
        if (status == OER_OK) return result<types>(std::move(other));
        return result<types>(fault(status, 0, 0, 0, subject::definitions));
    }

    /* Whether the octets begin with an encoding of a value of the type with the name, in any spelling
     * that the rules allow (Basic-OER): how long it is, and whether it is the canonical one. What
     * follows it is not looked at: compare `octets` of the answer with the size. It takes no memory.
     *   OER_REJECTED  they don't: `why` is an oer_reason, `place` how many had been looked at */
    result<checked> check(text_in name, octets_in given) noexcept {
        if (missing(name, given)) return nowhere(subject::octets);
        return checked_of(oer_check(&held_, name.data(), name.size(), given.data(), given.size()));
    }

    /* Whether the octets are the canonical encoding (Canonical-OER) of a value of the type with the name, and
     * nothing else: what has to be asked before a signature over them counts. They are canonical by these
     * types, which may not know all additions: oer_check_whole in oer.h says more. The result is ok() where
     * they are. It takes no memory.
     *   OER_FOLLOWS  an encoding is at the front, and others follow it: `place` is that of the first one
     *   OER_NOT_CANONICAL  they are an encoding, but not the canonical one
     *   OER_REJECTED  no encoding is at the front, as in check() */
    result<checked> check_whole(text_in name, octets_in given) noexcept {
        if (missing(name, given)) return nowhere(subject::octets);
        return checked_of(oer_check_whole(&held_, name.data(), name.size(), given.data(), given.size()));
    }

    /* That octets don't nest deeper than the type with the name is written out by from_modules(). The other
     * calls reject those that do as OER_UNKNOWN_ALTERNATIVE: oer_check_nesting in oer.h says more. Both numbers of
     * the answer are 0.
     *   OER_REJECTED  they do: `why` is OER_NESTING, `place` that of the other calls
     *   OER_MEMORY   an allocation failed in the library */
    result<checked> check_nesting(text_in name, octets_in given) noexcept {
        if (missing(name, given)) return nowhere(subject::octets);
        return checked_of(oer_check_nesting(&held_, name.data(), name.size(), given.data(), given.size()));
    }

    /* Checks each message as check() does. A message is a part of the octets; messages may overlap. Its
     * answer is at its place among the answers: checked_of() of it is what check() returns, or the error
     * has OER_OUTSIDE where the message is not all in the octets. It takes no memory. The answer is how
     * many messages there are; answers past these stay as they are.
     *   OER_ROOM     there are fewer answers than messages: `needed` says how many there have to be. Those
     *                of a null pointer are none */
    result<std::size_t> check_many(text_in name, octets_in given, slice<const message> messages,
                                   slice<oer_checked> answers) noexcept {
        if (missing(name, given, messages)) return nowhere(subject::octets);
        std::uint32_t status = oer_check_many(&held_, name.data(), name.size(), given.data(), given.size(),
                                              messages.data(), messages.size(), answers.data(), answers.size());
        std::size_t count = messages.size();
        if (status == OER_OK) return result<std::size_t>(std::move(count));
        return result<std::size_t>(fault(status, 0, 0, status == OER_ROOM ? count : 0, subject::octets));
    }

    /* What an answer of check_many() says. */
    static result<checked> checked_of(const oer_checked &answer) noexcept {
        if (answer.status == OER_OK) {
            checked found = { answer.octets, answer.canonical != 0 };
            return result<checked>(std::move(found));
        }
        return result<checked>(fault(answer.status, answer.why, answer.octets, 0, subject::octets));
    }

    /* The canonical octets (Canonical-OER) of the value whose encoding, of at most `limit` octets, is at
     * the front of the octets. What follows it is not looked at.
     *   OER_REJECTED  there is no such encoding: `why` is an oer_reason, `place` how many octets had been
     *                looked at
     *   OER_MEMORY   an allocation failed, here or in the library */
    result<octets> canon(text_in name, octets_in given, std::uint64_t limit = OER_NO_LIMIT) noexcept {
        if (missing(name, given)) return nowhere(subject::octets);
        return gather<std::uint8_t>(given.size(), subject::octets, [&](std::uint8_t *out, std::size_t room) {
            return oer_canon(&held_, name.data(), name.size(), given.data(), given.size(), limit, out, room);
        });
    }

    /* The same, written into the buffer, which overlaps nothing else that is passed.
     *   OER_ROOM     the buffer is too small: `needed` of the error says how many octets it has to have */
    result<written> canon_into(text_in name, octets_in given, octets_out out,
                               std::uint64_t limit = OER_NO_LIMIT) noexcept {
        if (missing(name, given)) return nowhere(subject::octets);
        return told(oer_canon(&held_, name.data(), name.size(), given.data(), given.size(), limit, out.data(),
                              out.size()),
                    subject::octets);
    }

    /* The part of the encoding at the front of the octets to which the path leads, as it stands in them.
     * A path is steps joined by dots (docs/COMMAND.md): c0 a component, a0 an addition, i0 an element,
     * v the alternative chosen. What follows the encoding is not looked at: read() of the answer, and `place`
     * where the path leads nowhere, say how many octets the encoding has.
     *   OER_REJECTED  the octets don't begin with an encoding: `why` is an oer_reason, `place` how many
     *                octets had been looked at
     *   OER_NO_PATH  the text is not a path
     *   OER_NO_STEP  the path has a step that the type doesn't have, one past the last element, or one
     *                to an addition that the type doesn't know and that isn't there; or it goes on from
     *                a part that the type doesn't know
     *   OER_ABSENT   the path leads to a component or a known addition that is absent
     *   OER_MEMORY   an allocation failed, here or in the library */
    result<octets> part(text_in name, octets_in given, text_in path) noexcept {
        if (missing(name, given, path)) return nowhere(subject::octets);
        return gather<std::uint8_t>(given.size(), subject::octets, [&](std::uint8_t *out, std::size_t room) {
            return oer_part(&held_, name.data(), name.size(), given.data(), given.size(), path.data(), path.size(),
                            out, room);
        });
    }

    /* The same, written into the buffer, which overlaps nothing else that is passed.
     *   OER_ROOM     the buffer is too small: `needed` of the error says how many octets it has to have */
    result<written> part_into(text_in name, octets_in given, text_in path, octets_out out) noexcept {
        if (missing(name, given, path)) return nowhere(subject::octets);
        return told(oer_part(&held_, name.data(), name.size(), given.data(), given.size(), path.data(), path.size(),
                             out.data(), out.size()),
                    subject::octets);
    }

    /* Where that part lies in the octets: it is the `length` octets from the place `at` on, and nothing is
     * copied. Of a part without octets `at` is its place. `read` says how many octets the encoding has. The
     * errors are those of part(). */
    result<located> part_at(text_in name, octets_in given, text_in path) noexcept {
        if (missing(name, given, path)) return nowhere(subject::octets);
        return told(
            oer_part_at(&held_, name.data(), name.size(), given.data(), given.size(), path.data(), path.size()));
    }

    /* The part to which names lead, in place of a path: those of the parts on the way, joined by dots
     * (docs/COMMAND.md, Names), as list.1.b. A name is the identifier of a component, an addition or an
     * alternative, or the number of an element, counted from 0. What the type doesn't know has no name. All else is
     * as in part().
     *   OER_NO_PATH  a name is empty, as the whole text may be, or has another character than letters, digits
     *                and hyphens
     *   OER_NO_STEP  the type has no such name, or there is no such element
     *   OER_ABSENT   a component or a known addition is absent, or another alternative is chosen
     * and the other errors of part(). */
    result<octets> part_named(text_in name, octets_in given, text_in names) noexcept {
        if (missing(name, given, names)) return nowhere(subject::octets);
        return gather<std::uint8_t>(given.size(), subject::octets, [&](std::uint8_t *out, std::size_t room) {
            return oer_part_named(&held_, name.data(), name.size(), given.data(), given.size(), names.data(),
                                  names.size(), out, room);
        });
    }

    /* The same, written into the buffer, which overlaps nothing else that is passed.
     *   OER_ROOM     the buffer is too small: `needed` of the error says how many octets it has to have */
    result<written> part_named_into(text_in name, octets_in given, text_in names, octets_out out) noexcept {
        if (missing(name, given, names)) return nowhere(subject::octets);
        return told(oer_part_named(&held_, name.data(), name.size(), given.data(), given.size(), names.data(),
                                   names.size(), out.data(), out.size()),
                    subject::octets);
    }

    /* Where that part lies in the octets, as part_at() says it. The errors are those of part_named(). */
    result<located> part_named_at(text_in name, octets_in given, text_in names) noexcept {
        if (missing(name, given, names)) return nowhere(subject::octets);
        return told(oer_part_named_at(&held_, name.data(), name.size(), given.data(), given.size(), names.data(),
                                      names.size()));
    }

    /* The JSON (docs/JSON.md) of the value whose encoding, of at most `limit` octets, is at the front of
     * the octets, as UTF-8. What follows the encoding is not looked at.
     *   OER_REJECTED  there is no such encoding: `why` is an oer_reason, `place` how many octets had been
     *                looked at
     *   OER_MEMORY   an allocation failed, here or in the library */
    result<text> to_json(text_in name, octets_in given, std::uint64_t limit = OER_NO_LIMIT) noexcept {
        if (missing(name, given)) return nowhere(subject::octets);
        return gather<char>(room_of_json(given.size()), subject::octets, [&](char *out, std::size_t room) {
            return oer_to_json(&held_, name.data(), name.size(), given.data(), given.size(), limit, out, room);
        });
    }

    /* The same, written into the buffer, which overlaps nothing else that is passed. No zero octet is
     * written after it.
     *   OER_ROOM     the buffer is too small: `needed` of the error says how many octets it has to have */
    result<written> to_json_into(text_in name, octets_in given, text_out out,
                                 std::uint64_t limit = OER_NO_LIMIT) noexcept {
        if (missing(name, given)) return nowhere(subject::octets);
        return told(oer_to_json(&held_, name.data(), name.size(), given.data(), given.size(), limit, out.data(),
                                out.size()),
                    subject::octets);
    }

    /* The canonical octets of the value that the JSON stands for.
     *   OER_NO_JSON  the text is not JSON, or not UTF-8: `place` says where
     *   OER_REJECTED  the JSON is no value of the type: `why` is an oer_json_reason, `place` is 0
     *   OER_MEMORY   an allocation failed, here or in the library */
    result<octets> from_json(text_in name, text_in json) noexcept {
        if (missing(name, json)) return nowhere(subject::json);
        return gather<std::uint8_t>(json.size(), subject::json, [&](std::uint8_t *out, std::size_t room) {
            return oer_from_json(&held_, name.data(), name.size(), json.data(), json.size(), out, room);
        });
    }

    /* The same, written into the buffer, which overlaps nothing else that is passed.
     *   OER_ROOM     the buffer is too small: `needed` of the error says how many octets it has to have */
    result<written> from_json_into(text_in name, text_in json, octets_out out) noexcept {
        if (missing(name, json)) return nowhere(subject::json);
        return told(oer_from_json(&held_, name.data(), name.size(), json.data(), json.size(), out.data(), out.size()),
                    subject::json);
    }

    /* Why from_json() rejects the JSON, in lines of UTF-8, each with its line feed, or nothing where it is accepted:
     * the way to the innermost part that the type rejects, what is wrong with it, and what is wanted there; of a text
     * that is not JSON the line and the column of the place, and that line with a mark under it.
     *   OER_MEMORY   an allocation failed, here or in the library */
    result<text> explain_json(text_in name, text_in json) noexcept {
        if (missing(name, json)) return nowhere(subject::json);
        return gather<char>(room_of_lines, subject::json, [&](char *out, std::size_t room) {
            return oer_explain_json(&held_, name.data(), name.size(), json.data(), json.size(), out, room);
        });
    }

    /* The same, written into the buffer, which overlaps nothing else that is passed. No zero octet is written
     * after it.
     *   OER_ROOM     the buffer is too small: `needed` of the error says how many octets it has to have */
    result<written> explain_json_into(text_in name, text_in json, text_out out) noexcept {
        if (missing(name, json)) return nowhere(subject::json);
        return told(oer_explain_json(&held_, name.data(), name.size(), json.data(), json.size(), out.data(),
                                     out.size()),
                    subject::json);
    }

    /* Why check() rejects the octets, in lines of UTF-8, each with its line feed, or nothing where they are accepted:
     * what each octet is, up to the part that was being read, the names on the way to it, what is wrong with it, and
     * what is wanted there. oer_explain_octets in oer.h says more, on memory too.
     *   OER_MEMORY   an allocation failed, here or in the library */
    result<text> explain_octets(text_in name, octets_in given) noexcept {
        if (missing(name, given)) return nowhere(subject::octets);
        return gather<char>(room_of_lines, subject::octets, [&](char *out, std::size_t room) {
            return oer_explain_octets(&held_, name.data(), name.size(), given.data(), given.size(), out, room);
        });
    }

    /* The same, written into the buffer, which overlaps nothing else that is passed. No zero octet is written
     * after it.
     *   OER_ROOM     the buffer is too small: `needed` of the error says how many octets it has to have */
    result<written> explain_octets_into(text_in name, octets_in given, text_out out) noexcept {
        if (missing(name, given)) return nowhere(subject::octets);
        return told(oer_explain_octets(&held_, name.data(), name.size(), given.data(), given.size(), out.data(),
                                       out.size()),
                    subject::octets);
    }

private:
    /* The error of a status other than OER_REJECTED. */
    static modules_error modules_fault(std::uint32_t status) noexcept {
        modules_error made = modules_error();
        made.status = status;
        made.of = subject::modules;
        return made;
    }

    /* The types of the texts at the places. */
    static result<types, modules_error> of_modules(const char *texts, std::size_t size, const message *places,
                                                   std::size_t count, std::uint8_t nesting) noexcept {
        types made;
        modules_error why = modules_fault(OER_OK);
        oer_understood answer = oer_types_read_modules(&made.held_, texts, size, places, count, nesting, why.words,
                                                       sizeof why.words - 1);
        if (answer.status == OER_OK) return result<types, modules_error>(std::move(made));
        why.status = answer.status;
        why.why = answer.why;
        why.place = answer.place;
        why.text = answer.text;
        why.line = answer.line;
        why.column = answer.column;
        return result<types, modules_error>(why);
    }

    /* Begins as a new one; what it held has moved. */
    void forget() noexcept { held_ = oer_types(); }

    /* Whether something that a call would read is missing. */
    static bool missing() noexcept { return false; }
    template <class First, class... Rest>
    static bool missing(const First &first, const Rest &...rest) noexcept {
        return first.missing() || missing(rest...);
    }

    /* The error of a call that would read what is missing. */
    static error nowhere(subject of) noexcept { return fault(OER_OUTSIDE, 0, 0, 0, of); }

    static error fault(std::uint32_t status, std::uint32_t why, std::uint64_t place, std::uint64_t needed,
                       subject of) noexcept {
        error made = { status, why, place, needed, of };
        return made;
    }

    /* The error of an answer that is not OER_OK. */
    static error fault(const oer_written &answer, subject of) noexcept {
        return fault(answer.status, answer.why, answer.status == OER_ROOM ? 0 : answer.octets, answer.written, of);
    }

    static result<written> told(const oer_written &answer, subject of) noexcept {
        if (answer.status != OER_OK) return result<written>(fault(answer, of));
        written made = { answer.octets, static_cast<std::size_t>(answer.written) };
        return result<written>(std::move(made));
    }

    static result<located> told(const oer_located &answer) noexcept {
        if (answer.status != OER_OK) {
            return result<located>(fault(answer.status, answer.why, answer.octets, 0, subject::octets));
        }
        located place = located();
        place.at = answer.at;
        place.length = answer.length;
        place.read = answer.octets;
        return result<located>(std::move(place));
    }

    /* Where the JSON of an encoding begins to be tried; more is taken if it is longer. */
    static std::size_t room_of_json(std::size_t size) noexcept {
        return size < static_cast<std::size_t>(-1) / 8 ? 4 * size + 64 : size;
    }

    /* Where the lines that explain an error begin to be tried. */
    static constexpr std::size_t room_of_lines = 1024;

    /* Calls with a buffer of `room` elements, and where that is too small once more with as many as are
     * needed. */
    template <class T, class Call>
    static result<buffer<T>> gather(std::size_t room, subject of, Call call) noexcept {
        buffer<T> made;
        if (!made.make(room)) return result<buffer<T>>(fault(OER_MEMORY, 0, 0, 0, of));
        oer_written answer = call(made.at_.get(), room);
        if (answer.status == OER_ROOM) {
            room = static_cast<std::size_t>(answer.written);
            if (room != answer.written || !made.make(room)) return result<buffer<T>>(fault(OER_MEMORY, 0, 0, 0, of));
            answer = call(made.at_.get(), room);
        }
        if (answer.status != OER_OK) return result<buffer<T>>(fault(answer, of));
        made.size_ = static_cast<std::size_t>(answer.written);
        made.read_ = answer.octets;
        return result<buffer<T>>(std::move(made));
    }

    oer_types held_;
};

namespace names {

/* The name that a table has at a number, or "Unknown". */
template <std::size_t N>
const char *at(const char *const (&table)[N], std::uint32_t number) noexcept {
    return number < N && table[number] ? table[number] : "Unknown";
}

inline const char *status(std::uint32_t number) noexcept {
    static const char *const table[] = { "Ok",   "Rejected", "NoTypes",    "Unnamed", "Memory",
                                         "Room", "NoPath",  "NoStep", "Absent",  "NoJson", "Outside",
                                         "NotCanonical", "Follows" };
    return at(table, number);
}

inline const char *reason(std::uint32_t number) noexcept {
    static const char *const table[] = {
        nullptr,        nullptr,    nullptr,       "End",          "Limit",       "Window",    "LengthForm",
        "EmptyNumber",  "IntegerRange", "EnumForm", "UnknownEnum", "Size",        "Character", "BitUnused",
        "ObjectId",     "PreamblePadding", "TagForm", "UnknownAlternative", "UnknownAddition", "Nesting"
    };
    return at(table, number);
}

inline const char *text_reason(std::uint32_t number) noexcept {
    static const char *const table[] = {
        "NotUtf8", nullptr, "Token", "Syntax", "Number", "Name", "Repeated", "Mixed", "Default", "TooDeep",
        "TooManyParts", "BoundOrder", "SizeOrder", "BadName", "RepeatedName", "NoItems", "RepeatedNumber",
        "RepeatedTag", "DefaultMisfit", "EmptyElement", "Parts"
    };
    return at(table, number);
}

inline const char *json_reason(std::uint32_t number) noexcept {
    static const char *const table[] = { nullptr, nullptr, "Kind", "Name", "Missing", "Range", "Misfit" };
    return at(table, number);
}

inline const char *modules_reason(std::uint32_t number) noexcept {
    static const char *const table[] = { "NotUtf8", "Token", "Syntax", "TooDeep", "NoTypes" };
    return at(table, number);
}

} // namespace names

inline const char *error::name() const noexcept {
    if (status == moved_from) return "Moved";
    if (status != OER_REJECTED) return names::status(status);
    switch (of) {
    case subject::octets:
        return names::reason(why);
    case subject::definitions:
        return names::text_reason(why);
    case subject::modules:
        return names::modules_reason(why);
    default:
        return names::json_reason(why);
    }
}

} // namespace oer

#undef OER_HPP_NODISCARD
#undef OER_HPP_THROWS
#endif
