// Calls every function of bindings/c/classad.h from C++ and checks one answer of each: that the
// header compiles there, that its declarations fit the library, and that its constants do.
#include "classad.h"

#include <cstdio>
#include <cstring>

static_assert(CLASSAD_DEFINITION_WORDS_START == CLASSAD_WORDS_OF_NODE * CLASSAD_NODES, "nodes first");
static_assert(CLASSAD_WORDS == CLASSAD_DEFINITION_WORDS_START + CLASSAD_WORDS_OF_DEFINITION * CLASSAD_DEFINITIONS,
              "then definitions");
static_assert(CLASSAD_TABLE_WORDS == 2 * 2 * CLASSAD_NODES && CLASSAD_LIST_ENTRIES == 2 * CLASSAD_NODES, "two ads");

namespace {

struct Ad {
    uint64_t words[CLASSAD_WORDS];
    uint8_t bytes[CLASSAD_BYTES];
};

Ad first, second;
uint64_t table[CLASSAD_TABLE_WORDS], list[CLASSAD_LIST_ENTRIES];
size_t flags[CLASSAD_FLAGS];
int failed = 0;

void expect(const char *what, bool holds)
{
    if (!holds) {
        std::printf("%s: not as expected\n", what);
        failed = 1;
    }
}

const uint8_t *bytes_of(const char *text) { return reinterpret_cast<const uint8_t *>(text); }

void read_into(Ad &ad, const char *text, uint64_t definitions, uint64_t nodes)
{
    uint64_t answer[CLASSAD_READ_NUMBERS];
    classad_read(bytes_of(text), std::strlen(text), ad.words, CLASSAD_WORDS, ad.bytes, CLASSAD_BYTES, answer);
    expect("classad_read", answer[0] == CLASSAD_ACCEPTED && answer[1] == definitions && answer[2] == nodes);
}

void print_and_check(const char *printed)
{
    uint64_t checked[CLASSAD_CHECK_NUMBERS], answer[CLASSAD_PRINT_NUMBERS];
    uint8_t output[CLASSAD_TEXT_BYTES];
    const size_t length = std::strlen(printed);
    classad_check(first.words, CLASSAD_WORDS, first.bytes, CLASSAD_BYTES, checked);
    expect("classad_check",
           checked[0] == CLASSAD_ACCEPTED && checked[1] == 2 && checked[2] == 6 && checked[3] == length);
    classad_print(first.words, CLASSAD_WORDS, first.bytes, CLASSAD_BYTES, output, sizeof output, answer);
    expect("classad_print",
           answer[0] == CLASSAD_ACCEPTED && answer[1] == length && std::memcmp(output, printed, length) == 0);
    classad_print(first.words, CLASSAD_WORDS, first.bytes, CLASSAD_BYTES, output, length - 1, answer);
    expect("classad_print, short", answer[0] == CLASSAD_PRINT_TOO_LONG && answer[1] == 0);
}

void match_and_order()
{
    uint64_t answer[CLASSAD_MATCH_NUMBERS], found[CLASSAD_DEPENDENCIES_NUMBERS];
    classad_match(first.words, CLASSAD_WORDS, first.bytes, CLASSAD_BYTES, second.words, CLASSAD_WORDS,
                  second.bytes, CLASSAD_BYTES, table, CLASSAD_TABLE_WORDS, list, CLASSAD_LIST_ENTRIES,
                  CLASSAD_DEFAULT_BUDGET, answer);
    expect("classad_match", answer[0] == CLASSAD_ACCEPTED && answer[1] == 1 && answer[2] == 1 && answer[3] == 0 &&
                                answer[4] == 7 && answer[5] == 9);
    classad_dependencies(first.words, CLASSAD_WORDS, first.bytes, CLASSAD_BYTES, second.words, CLASSAD_WORDS,
                         second.bytes, CLASSAD_BYTES, flags, CLASSAD_FLAGS, list, CLASSAD_LIST_ENTRIES, found);
    expect("classad_dependencies", found[0] == CLASSAD_ACCEPTED && found[1] == answer[6] && found[2] == answer[5]);
    expect("flags", flags[CLASSAD_NODES] == 1 && flags[0] == 0 && flags[CLASSAD_NODES + 1] == 0);
}

void show()
{
    uint64_t value[CLASSAD_VALUE_NUMBERS], part[CLASSAD_STRING_NUMBERS], place[CLASSAD_POSITION_NUMBERS];
    uint64_t definition[CLASSAD_DEFINITION_NUMBERS], answer[CLASSAD_EXPRESSION_NUMBERS];
    uint8_t output[CLASSAD_TEXT_BYTES];
    classad_value(table, CLASSAD_TABLE_WORDS, CLASSAD_SECOND, 1, value);
    expect("classad_value", value[0] == CLASSAD_VALUE_STRING && value[1] == CLASSAD_SECOND && value[3] == 2);
    classad_string(first.bytes, CLASSAD_BYTES, second.bytes, CLASSAD_BYTES, value[1], static_cast<uint16_t>(value[2]),
                   static_cast<uint16_t>(value[3]), part);
    expect("classad_string", part[1] == 2 && std::memcmp(second.bytes + part[0], "P3", 2) == 0);
    classad_definition(second.words, CLASSAD_WORDS, 2, definition);
    expect("classad_definition", definition[0] == 1 && definition[1] == 2 && definition[3] == 12);
    classad_expression(first.words, CLASSAD_WORDS, first.bytes, CLASSAD_BYTES, 3, output, sizeof output, answer);
    expect("classad_expression",
           answer[0] == CLASSAD_ACCEPTED && answer[1] == 15 && std::memcmp(output, "other.B is \"P3\"", 15) == 0);
    classad_position(bytes_of("a\nbc"), 4, 3, place);
    expect("classad_position", place[0] == 2 && place[1] == 2);
}

void operate()
{
    const uint64_t operands[6] = {CLASSAD_VALUE_BOOLEAN, 1, CLASSAD_VALUE_INTEGER, 3, CLASSAD_VALUE_INTEGER, 5};
    uint64_t result[2];
    double real;
    classad_conditional(operands, 6, result, 2);
    expect("classad_conditional", result[0] == CLASSAD_VALUE_INTEGER && result[1] == 3);
    classad_binary(first.bytes, CLASSAD_BYTES, second.bytes, CLASSAD_BYTES, CLASSAD_NODE_SUBTRACT, operands + 2, 4,
                   result, 2);
    expect("classad_binary", result[0] == CLASSAD_VALUE_INTEGER && result[1] == UINT32_MAX - 1); // -2
    classad_unary(CLASSAD_NODE_NOT, operands, 2, result, 2);
    expect("classad_unary", result[0] == CLASSAD_VALUE_BOOLEAN && result[1] == 0);
    classad_real(25, 1, result, 2);
    std::memcpy(&real, result + 1, sizeof real);
    expect("classad_real", result[0] == CLASSAD_VALUE_REAL && real == 2.5);
}

} // namespace

int main()
{
    read_into(first, "[n=7;Requirements=other.B is (\"P3\")&&true]", 2, 6);
    read_into(second, "[a = a; b = \"P3\"; Requirements = true; Rank = other.n]", 4, 4);
    print_and_check("[n = 7; Requirements = other.B is \"P3\" && true]");
    match_and_order();
    show();
    operate();
    return failed;
}
