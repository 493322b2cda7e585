#pragma once

#include <cstdio>
#include <cstdlib>
#include <mutex>
#include <string>

namespace trace {

inline std::FILE* file;

// Opens the file of the process, to append to it. It is called once, before the first event.
inline bool open(const char* path) {
    file = std::fopen(path, "ab");
    return file != nullptr;
}

// Writes a line of JSON in UTF-8. The operating system has the line when the function returns.
inline void event(std::string line) {
    static std::mutex lock;
    const std::lock_guard<std::mutex> guard(lock);
    line += '\n';
    std::fwrite(line.data(), 1, line.size(), file);
    if (std::fflush(file) == EOF || std::ferror(file)) {
        std::abort(); // a record that lacks a line says little
    }
}

} // namespace trace
