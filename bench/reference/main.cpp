// A reference for border_edit: the same work with the same answers, written for speed, and nothing of it proved.
//
//     reference MAP SCRIPT --out FILE [--undo N]
//
// opens a topology of docs/FORMATS.md with all tests of opening, answers all lines of a script, keeping N changes, and
// saves the map, each border once. Its faults of opening have no places. All tests are in whole numbers.
#include <cstdio>
#include <cstdlib>
#include <cstring>

#include <fcntl.h>
#include <sys/stat.h>
#include <unistd.h>

#include "reader.h"
#include "script.h"

// Less than bench.py's comments that tell when the lines before them have been answered.
constexpr size_t PIECE = 16'384;

struct DeviceFault {
    const char* what;
};

static std::string read_file(const char* path) {
    int file = open(path, O_RDONLY);
    struct stat status;
    if (file < 0 || fstat(file, &status)) throw DeviceFault{"map fault"};
    std::string text(size_t(status.st_size), '\0');
    size_t done = 0;
    while (done < text.size()) {
        ssize_t got = read(file, &text[done], text.size() - done);
        if (got <= 0) throw DeviceFault{"map fault"};
        done += size_t(got);
    }
    close(file);
    return text;
}

static void write_all(int file, std::string_view text, const char* fault) {
    while (!text.empty()) {
        ssize_t put = write(file, text.data(), text.size());
        if (put <= 0) throw DeviceFault{fault};
        text.remove_prefix(size_t(put));
    }
}

// Answers each line as it comes; whether all were accepted.
static bool answer_script(const char* path, Document& document, size_t depth) {
    Answers answers(document, depth);
    std::string held, said;
    static char piece[PIECE];
    int file = open(path, O_RDONLY);
    while (true) {
        ssize_t got = read(file, piece, sizeof piece);
        if (got < 0) throw DeviceFault{"script fault"};
        if (got == 0) break;
        std::string_view rest(piece, size_t(got));
        for (size_t end; (end = rest.find('\n')) != std::string_view::npos; rest.remove_prefix(end + 1)) {
            held.append(rest.substr(0, end));
            answers.append(said, held);
            held.clear();
            if (said.size() >= PIECE) write_all(1, said, "write fault"), said.clear();
        }
        held.append(rest);
    }
    answers.append(said, held);
    write_all(1, said, "write fault");
    close(file);
    return answers.are_all_accepted();
}

static void save(const char* path, Document& document) {
    int file = open(path, O_WRONLY | O_CREAT | O_TRUNC, 0666);
    write_all(file, Writer(document).written(), "save fault");
    close(file);
}

static int run(const char* map, const char* script, const char* saved, size_t depth) {
    static Document document;
    try {
        document.map = read_file(map);
        Reader(document).open();
        bool is_accepted = answer_script(script, document, depth);
        save(saved, document);
        return is_accepted ? 0 : 1;
    } catch (const Fault& fault) {
        return std::fprintf(stderr, "open: %s\n", fault.what()), 2;
    } catch (const DeviceFault& fault) {
        return std::fprintf(stderr, "%s\n", fault.what), 3;
    }
}

int main(int count, char** words) {
    int depth = count == 7 && !std::strcmp(words[5], "--undo") ? std::atoi(words[6]) : 100;
    if ((count != 5 && count != 7) || std::strcmp(words[3], "--out") || depth < 1 || depth > 1000)
        return std::fputs("usage: reference MAP SCRIPT --out FILE [--undo N]\n", stderr), 64;
    // The system takes back all memory at once.
    _exit(run(words[1], words[2], words[4], size_t(depth)));
}
