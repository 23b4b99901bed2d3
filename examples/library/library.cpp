/* library TEXT..: the canonical links of pure identity URIs, by four threads, each with a session over the same tables.
   Build: g++ -std=c++17 library.cpp $(pkg-config --cflags --libs tdl) -pthread */
#include <cstdio>
#include <stdexcept>
#include <string>
#include <string_view>
#include <thread>
#include <vector>
#include <tdl.h>

/* A session. It is in one call at a time, so each thread has its own. */
class Session {
public:
    Session() {
        size_t len;
        check(tdl_open(&handle, &choice, nullptr, 0, stem(), STEM.size(), nullptr, 0, nullptr, 0, nullptr, 0, &len));
    }
    explicit Session(Session &other) { check(tdl_share(&handle, &other.handle, &choice, nullptr, 0, stem(), STEM.size())); }
    Session &operator=(const Session &) = delete;
    ~Session() { tdl_close(&handle); }

    /* Returns `ok` and the translation, or `no` and the reason why there is none. */
    std::string translate(std::string_view text) {
        size_t len;
        uint32_t status = tdl_translate(&handle, bytes(text), text.size(), out.data(), out.size(), &len);
        if (status != TDL_NO)
            check(status);
        return (status == TDL_OK ? "ok " : "no ") + std::string(out.begin(), out.begin() + static_cast<long>(len));
    }

private:
    static constexpr std::string_view STEM = "https://id.gs1.org";
    static constexpr tdl_choice choice = { sizeof(tdl_choice), TDL_PURE, TDL_CANON, TDL_ANY_FILTER, TDL_ANY_GCP, 0 };
    tdl_handle handle = TDL_CLOSED;
    std::vector<uint8_t> out = std::vector<uint8_t>(TDL_ROOM);

    static const uint8_t *bytes(std::string_view text) { return reinterpret_cast<const uint8_t *>(text.data()); }
    static const uint8_t *stem() { return bytes(STEM); }
    static void check(uint32_t status) {
        if (status != TDL_OK)
            throw std::runtime_error("libtdl: status " + std::to_string(status));
    }
};

int main(int count, char **words) {
    const size_t threads = 4;
    std::vector<std::string> texts(words + 1, words + count), answers(texts.size());
    Session first;
    std::vector<std::thread> started;
    std::vector<Session *> sessions;
    for (size_t k = 0; k < threads; k++)
        sessions.push_back(new Session(first));
    for (size_t k = 0; k < threads; k++)
        started.emplace_back([&, k] {
            for (size_t n = k; n < texts.size(); n += threads)
                answers[n] = sessions[k]->translate(texts[n]);
        });
    for (size_t k = 0; k < threads; k++) {
        started[k].join();
        delete sessions[k];
    }
    for (const std::string &answer : answers)
        std::puts(answer.c_str());
}
