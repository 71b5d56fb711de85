// For measurements of seconds and memory: a run in a process of its own, so that no side finds memory that another one
// left, and none takes longer than it may.
#ifndef APART_HPP
#define APART_HPP

#include <malloc.h>
#include <poll.h>
#include <sys/wait.h>
#include <unistd.h>

#include <csignal>
#include <exception>
#include <fstream>
#include <iostream>
#include <string>

#include "timing.hpp"

namespace apart {

/// What a run took and gave: 0 seconds where it failed or took too long.
template <typename Answer>
struct Run {
    double seconds = 0, megabytes = 0;
    Answer answer{};
};

/// A size of this process in MB, as the system names it: VmRSS now, VmHWM at most since it was told to forget.
inline double megabytes(const std::string &name) {
    std::ifstream status("/proc/self/status");
    for (std::string word; status >> word;) {
        double kilobytes = 0;
        if (word == name + ":" && status >> kilobytes) return kilobytes / 1024;
    }
    return 0;
}

/// The seconds on a processor that the work takes, and the most memory beside what the process holds before.
template <typename Answer, typename Work>
Run<Answer> timed(const Work &work) {
    std::ofstream("/proc/self/clear_refs") << "5";
    Run<Answer> it;
    const double before = megabytes("VmRSS"), begun = timing::seconds();
    it.answer = work();
    it.seconds = timing::seconds() - begun;
    it.megabytes = megabytes("VmHWM") - before;
    return it;
}

/// Waits until the child writes, and ends it where it takes more seconds on a processor. A limit of the system's own,
/// by setrlimit, would make the clock of the process coarse.
inline bool is_in_time(pid_t child, int end, double most) {
    clockid_t clock;
    timespec now{};
    pollfd asked{end, POLLIN, 0};
    while (poll(&asked, 1, 500) == 0) {
        const bool is_read = !clock_getcpuclockid(child, &clock) && !clock_gettime(clock, &now);
        if (!is_read || double(now.tv_sec) <= most) continue;
        kill(child, SIGKILL);
        return false;
    }
    return true;
}

/// Does the work, which gives a Run, in a process of its own, which may take so many seconds on a processor, and says
/// whose it was where it comes to nothing.
template <typename Answer, typename Work>
Run<Answer> run(const std::string &name, const Work &work, double most = 1e9) {
    int ends[2];
    if (pipe(ends)) std::exit(1);
    malloc_trim(0);
    const auto child = fork();
    if (child == 0) {
        close(ends[0]);
        try {
            const Run<Answer> it = work();
            _exit(write(ends[1], &it, sizeof it) == sizeof it ? 0 : 1);
        } catch (const std::exception &problem) {
            std::cerr << name << ": " << problem.what() << "\n";
            _exit(1);
        }
    }
    close(ends[1]);
    Run<Answer> it;
    const bool is_timely = is_in_time(child, ends[0], most);
    const bool is_told = is_timely && read(ends[0], &it, sizeof it) == sizeof it;
    close(ends[0]);
    waitpid(child, nullptr, 0);
    if (!is_told) std::cerr << name << (is_timely ? " failed\n" : " took too long\n");
    return is_told ? it : Run<Answer>{};
}

}  // namespace apart

#endif
