// libgit2's transactions over a repository in memory (a tmpfs), as something that does nearly the same work on files.
#pragma once

#include <cstddef>
#include <string>

// Why it is not measured, or nothing.
std::string git_missing();

// What it is: the version, and where its files lie.
std::string git_title();

// A repository in which so many names have objects and logs. It is removed in the end.
class GitSite {
public:
    explicit GitSite(size_t names);
    ~GitSite();
    GitSite(const GitSite &) = delete;
    GitSite &operator=(const GitSite &) = delete;

    // One transaction: locks so many names, sets each to another object with a log line, and commits.
    void move(size_t edits);

private:
    struct Parts;
    Parts *parts;
};
