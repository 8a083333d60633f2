// Breaks texts by rules with ICU's RuleBasedBreakIterator, for comparison with rbbi.
//
//   icu compile RULES ROUNDS       milliseconds for compiling the rules once
//   icu scan RULES TEXT ROUNDS     boundaries, and seconds for finding all of them once
//   icu questions RULES TEXT SCRIPT ROUNDS     questions, and seconds for asking all of them once
//   icu version                    ICU's version
//   icu breaks RULES TEXT          a line `PLACE STATUS,..` for each boundary, as `rbbi breaks` has it
//
// RULES is in ICU's own syntax, and both files are UTF-8. A time is the least of ROUNDS rounds.
#include <unicode/rbbi.h>
#include <unicode/unistr.h>

#include <algorithm>
#include <cstdint>
#include <cstdio>
#include <cstdlib>
#include <ctime>
#include <fstream>
#include <iterator>
#include <limits>
#include <map>
#include <memory>
#include <string>
#include <vector>

using icu::BreakIterator;
using icu::RuleBasedBreakIterator;
using icu::UnicodeString;

static UnicodeString read_file(const char *name) {
    std::ifstream file(name, std::ios::binary);
    if (!file) {
        std::fprintf(stderr, "cannot read %s\n", name);
        std::exit(6);
    }
    std::string bytes((std::istreambuf_iterator<char>(file)), std::istreambuf_iterator<char>());
    return UnicodeString::fromUTF8(bytes);
}

static std::unique_ptr<RuleBasedBreakIterator> compile(const UnicodeString &rules) {
    UErrorCode status = U_ZERO_ERROR;
    UParseError fault;
    std::unique_ptr<RuleBasedBreakIterator> made(new RuleBasedBreakIterator(rules, fault, status));
    if (U_FAILURE(status)) {
        std::fprintf(stderr, "%d:%d: %s\n", fault.line, fault.offset, u_errorName(status));
        std::exit(3);
    }
    return made;
}

// The seconds that a processor has worked for this process.
static double seconds() {
    timespec now;
    clock_gettime(CLOCK_PROCESS_CPUTIME_ID, &now);
    return now.tv_sec + now.tv_nsec / 1e9;
}

template <typename Work>
static double least_seconds(int rounds, Work work) {
    double least = std::numeric_limits<double>::infinity();
    for (int round = 0; round < rounds; round++) {
        double start = seconds();
        work();
        least = std::min(least, seconds() - start);
    }
    return least;
}

// ICU counts UTF-16 units; a place is told in characters.
static void print_boundaries(RuleBasedBreakIterator &breaks, const UnicodeString &text) {
    std::string out;
    std::vector<int32_t> statuses(64);
    int32_t unit = 0;
    int64_t place = 0;
    for (int32_t at = breaks.first(); at != BreakIterator::DONE; at = breaks.next()) {
        place += text.countChar32(unit, at - unit);
        unit = at;
        out += std::to_string(place);
        UErrorCode status = U_ZERO_ERROR;
        int32_t count = breaks.getRuleStatusVec(statuses.data(), 64, status);
        for (int32_t i = 0; i < count; i++) {
            out += i == 0 ? ' ' : ',';
            out += std::to_string(statuses[i]);
        }
        out += '\n';
        if (out.size() > 60000) {
            std::fwrite(out.data(), 1, out.size(), stdout);
            out.clear();
        }
    }
    std::fwrite(out.data(), 1, out.size(), stdout);
}

// A line of a script. A question has a place in UTF-16 units, and `replace` also `1 x`.
enum Kind { NEXT, PREVIOUS, FOLLOWING, PRECEDING, IS, REPLACE };

struct Question {
    Kind kind;
    int32_t place;
};

static std::vector<Question> read_questions(const char *name) {
    static const std::map<std::string, Kind> KINDS = {
        {"next", NEXT}, {"previous", PREVIOUS}, {"following", FOLLOWING},
        {"preceding", PRECEDING}, {"is", IS}, {"replace", REPLACE}};
    std::ifstream file(name);
    std::vector<Question> questions;
    std::string word;
    while (file >> word) {
        Question question = {KINDS.at(word), 0};
        if (question.kind >= FOLLOWING) file >> question.place;
        if (question.kind == REPLACE) file >> word >> word;
        questions.push_back(question);
    }
    return questions;
}

// Has ICU look at a text where it is, as it is now: a shared one would be copied before an edit.
static void look_at(RuleBasedBreakIterator &breaks, const UnicodeString &text) {
    static UText *view = nullptr;
    UErrorCode status = U_ZERO_ERROR;
    view = utext_openConstUnicodeString(view, &text, &status);
    breaks.setText(view, status);
}

// Asks all questions of a text, and gives a sum of the answers, so that none is left out. An edit puts
// an `x` in place of a unit.
static int64_t ask(RuleBasedBreakIterator &breaks, UnicodeString &text, const std::vector<Question> &questions) {
    int64_t sum = 0;
    for (const Question &question : questions) {
        switch (question.kind) {
        case NEXT: sum += breaks.next(); break;
        case PREVIOUS: sum += breaks.previous(); break;
        case FOLLOWING: sum += breaks.following(question.place); break;
        case PRECEDING: sum += breaks.preceding(question.place); break;
        case IS: sum += breaks.isBoundary(question.place); break;
        case REPLACE:
            text.setCharAt(question.place, u'x');
            look_at(breaks, text);
        }
    }
    return sum;
}

int main(int count, char **words) {
    std::string command = count > 1 ? words[1] : "";
    if (command == "version" && count == 2) {
        std::printf("%s\n", U_ICU_VERSION);
        return 0;
    }
    if (command == "compile" && count == 4) {
        UnicodeString rules = read_file(words[2]);
        std::printf("%.3f\n", 1000 * least_seconds(std::atoi(words[3]), [&] { compile(rules); }));
        return 0;
    }
    if (command == "scan" && count == 5) {
        auto breaks = compile(read_file(words[2]));
        UnicodeString text = read_file(words[3]);
        int64_t found = 0;
        double passed = least_seconds(std::atoi(words[4]), [&] {
            breaks->setText(text);  // without it, a later round would find the boundaries kept
            found = 0;
            for (int32_t at = breaks->first(); at != BreakIterator::DONE; at = breaks->next()) found++;
        });
        std::printf("%lld %.6f\n", static_cast<long long>(found), passed);
        return 0;
    }
    if (command == "questions" && count == 6) {
        auto breaks = compile(read_file(words[2]));
        UnicodeString text = read_file(words[3]);
        std::vector<Question> questions = read_questions(words[4]);
        volatile int64_t sum = 0;
        double passed = least_seconds(std::atoi(words[5]), [&] {
            look_at(*breaks, text);
            sum = ask(*breaks, text, questions);
        });
        std::printf("%zu %.6f\n", questions.size(), passed);
        return 0;
    }
    if (command == "breaks" && count == 4) {
        auto breaks = compile(read_file(words[2]));
        UnicodeString text = read_file(words[3]);
        breaks->setText(text);
        print_boundaries(*breaks, text);
        return 0;
    }
    std::fprintf(stderr, "usage: icu compile RULES ROUNDS | scan RULES TEXT ROUNDS"
                         " | questions RULES TEXT SCRIPT ROUNDS | breaks RULES TEXT\n");
    return 2;
}
