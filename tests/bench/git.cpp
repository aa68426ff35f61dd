#include "git.h"

#include <cstdio>
#include <cstdlib>

#ifndef WITH_GIT

std::string git_missing() { return "libgit2 was not found, so nothing is set beside it"; }
std::string git_title() { return ""; }

// Nobody asks for a site where git is missing.
struct GitSite::Parts {
};
GitSite::GitSite(size_t) : parts(nullptr) { std::abort(); }
GitSite::~GitSite() {}
void GitSite::move(size_t) { std::abort(); }

#else

#include <filesystem>
#include <git2.h>
#include <linux/magic.h>
#include <sys/vfs.h>
#include <unistd.h>
#include <vector>

static const char PLACE[] = "/dev/shm";

std::string git_missing()
{
    struct statfs about;
    if (statfs(PLACE, &about) != 0 || about.f_type != TMPFS_MAGIC || access(PLACE, W_OK) != 0)
        return std::string(PLACE) + " is no tmpfs that can be written, so nothing is set beside libgit2";
    return "";
}

std::string git_title()
{
    int major, minor, patch;
    git_libgit2_version(&major, &minor, &patch);
    return "libgit2 " + std::to_string(major) + "." + std::to_string(minor) + "." + std::to_string(patch) + " on a tmpfs";
}

static void must(int error, const char *what)
{
    if (error == 0)
        return;
    const git_error *why = git_error_last();
    std::fprintf(stderr, "bench: libgit2: %s: %s\n", what, why ? why->message : "no reason given");
    std::exit(1);
}

struct GitSite::Parts {
    std::filesystem::path path;
    git_repository *repository = nullptr;
    git_signature *who = nullptr;
    std::vector<std::string> names;
    git_oid objects[2];
    size_t turn = 0;
};

// Names get log lines: that is a repository's default where it has a working directory, and is said here all the same.
static void want_logs(git_repository *repository)
{
    git_config *config;
    must(git_repository_config(&config, repository), "config");
    must(git_config_set_bool(config, "core.logAllRefUpdates", 1), "core.logAllRefUpdates");
    git_config_free(config);
}

GitSite::GitSite(size_t names) : parts(new Parts)
{
    git_libgit2_init();
    parts->path = std::string(PLACE) + "/dehlbazin-bench-" + std::to_string(getpid());
    must(git_repository_init(&parts->repository, parts->path.c_str(), 0), "init");
    want_logs(parts->repository);
    must(git_signature_new(&parts->who, "planner", "planner@localhost", 1, 0), "signature");
    for (size_t i = 0; i < 2; i++)
        must(git_blob_create_from_buffer(&parts->objects[i], parts->repository, i ? "one" : "two", 3), "object");
    for (size_t n = 0; n < names; n++) {
        parts->names.push_back("refs/heads/aisle-" + std::to_string(n));
        git_reference *made;
        must(git_reference_create(&made, parts->repository, parts->names[n].c_str(), &parts->objects[1], 0, "first"), "create");
        git_reference_free(made);
    }
}

GitSite::~GitSite()
{
    git_signature_free(parts->who);
    git_repository_free(parts->repository);
    std::error_code ignored;
    std::filesystem::remove_all(parts->path, ignored);
    git_libgit2_shutdown();
    delete parts;
}

void GitSite::move(size_t edits)
{
    git_transaction *moving;
    must(git_transaction_new(&moving, parts->repository), "transaction");
    const git_oid *to = &parts->objects[parts->turn++ % 2];
    for (size_t n = 0; n < edits; n++) {
        must(git_transaction_lock_ref(moving, parts->names[n].c_str()), "lock");
        must(git_transaction_set_target(moving, parts->names[n].c_str(), to, parts->who, "moved"), "target");
    }
    must(git_transaction_commit(moving), "commit");
    git_transaction_free(moving);
}

#endif
