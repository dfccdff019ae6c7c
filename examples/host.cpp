// Uploads a file to a controller over a serial port, checks that the slot is this image's, and asks for a reset:
// host PORT FILE. An upload that was broken off goes on where it was.
#include <fcntl.h>
#include <poll.h>
#include <sys/file.h>
#include <termios.h>
#include <unistd.h>

#include <algorithm>
#include <array>
#include <chrono>
#include <cstdint>
#include <fstream>
#include <iostream>
#include <iterator>
#include <random>
#include <stdexcept>
#include <string>
#include <vector>

#include "belagunthi.h"
extern "C" {
#include "sha256.h"
}

namespace {

using Bytes = std::vector<std::uint8_t>;
using Clock = std::chrono::steady_clock;
using Lump = std::array<std::uint8_t, BG_LUMP>;

constexpr std::size_t packet_room = 512;
constexpr unsigned tries = 30;
constexpr std::chrono::milliseconds patience(200);

// A serial port that this process has alone: raw while it is open, then again as it was found.
class Port {
public:
    explicit Port(const char *path) : port_(open(path, O_RDWR | O_NOCTTY | O_CLOEXEC))
    {
        if (port_ < 0 || flock(port_, LOCK_EX | LOCK_NB) != 0 || tcgetattr(port_, &found_) != 0) {
            close(port_);
            throw std::runtime_error(std::string("cannot take the port ") + path);
        }
        termios raw = found_;
        cfmakeraw(&raw);
        raw.c_cflag |= CLOCAL | CREAD;
        tcsetattr(port_, TCSANOW, &raw);
        tcflush(port_, TCIFLUSH);
    }
    Port(const Port &) = delete;
    Port &operator=(const Port &) = delete;
    ~Port()
    {
        tcsetattr(port_, TCSANOW, &found_);
        close(port_);
    }

    // Sends bytes.
    void send(const std::uint8_t *bytes, std::size_t len)
    {
        while (len > 0) {
            ssize_t done = write(port_, bytes, len);
            if (done <= 0) {
                throw std::runtime_error("cannot write to the port");
            }
            bytes += done;
            len -= static_cast<std::size_t>(done);
        }
    }

    // Waits for a lump of bytes, until a moment, and gives how many there are; 0 where none came.
    std::uint32_t receive(Lump &lump, Clock::time_point until)
    {
        auto left = std::chrono::duration_cast<std::chrono::milliseconds>(until - Clock::now()).count();
        pollfd wait = {port_, POLLIN, 0};
        if (left <= 0 || poll(&wait, 1, static_cast<int>(left)) != 1) {
            return 0;
        }
        return static_cast<std::uint32_t>(std::max<ssize_t>(read(port_, lump.data(), lump.size()), 0));
    }

private:
    int port_;
    termios found_;
};

// Sends requests and waits for their replies.
class Host {
public:
    explicit Host(Port &port) : port_(port), sequence_(static_cast<std::uint8_t>(std::random_device()())) {}

    // Asks until it is answered, each time with a new sequence number; gives the offset that was answered.
    // `write` is one of the request writers, with everything but the sequence number and the output.
    template <typename Writer> std::size_t ask(std::uint32_t group, std::uint32_t command, Writer write)
    {
        for (unsigned i = 0; i < tries; i++) {
            sequence_ = bg_next_sequence(sequence_);
            std::uint32_t len = 0;
            if (write(sequence_, packet_.data(), packet_.size(), &len) != 0) {
                throw std::runtime_error("a request that cannot be written");
            }
            send(len);
            if (!answered(group, command, Clock::now() + patience)) {
                continue;
            }
            if (reply_[6] != 0) {
                throw std::runtime_error("the controller answered rc " + std::to_string(reply_[6]));
            }
            return reply_[8];
        }
        throw std::runtime_error("the controller did not answer");
    }

private:
    // Sends the packet's frames.
    void send(std::size_t len)
    {
        std::array<std::uint8_t, BG_LINE> frame;
        std::uint32_t sent[2] = {0, 1};
        for (std::size_t k = 0; k < sent[1]; k++) {
            if (bg_send_frame(packet_.data(), len, k, frame.data(), frame.size(), sent) != 0) {
                throw std::runtime_error("a frame that cannot be sent");
            }
            port_.send(frame.data(), sent[0]);
        }
    }

    // Waits for the reply to the last request, until a moment; other lines and replies are passed over.
    bool answered(std::uint32_t group, std::uint32_t command, Clock::time_point until)
    {
        while (std::size_t len = next_line(until)) {
            std::uint32_t body = 0, place = 0;
            if (bg_take_line(reader_, line_, len, answer_.data(), answer_.size(), &body, &place) == 0 && body > 0 &&
                bg_read_reply(answer_.data(), body, reply_) == 0 && reply_[0] == 3 && reply_[3] == group &&
                reply_[4] == sequence_ && reply_[5] == command) {
                return true;
            }
        }
        return false;
    }

    // Waits for the next line, until a moment, and gives its length; 0 where none came. Lines that are too long are
    // passed over.
    std::size_t next_line(Clock::time_point until)
    {
        while (at_ < lump_len_ || (at_ = 0, lump_len_ = port_.receive(lump_, until)) > 0) {
            std::uint32_t got[2] = {0, lump_len_};
            bg_collect(collector_, held_, lump_.data(), lump_len_, at_, line_, got);
            at_ = got[1];
            if (got[0] > 0) {
                return got[0];
            }
        }
        return 0;
    }

    Port &port_;
    std::uint8_t sequence_;
    Lump lump_;
    std::uint32_t lump_len_ = 0;
    std::uint32_t at_ = 0;
    std::uint32_t collector_[BG_COLLECTOR] = {};
    std::uint8_t held_[BG_HELD] = {};
    std::uint8_t line_[BG_LINE];
    std::uint32_t reader_[BG_READER] = {};
    std::uint32_t reply_[BG_REPLY] = {};
    std::array<std::uint8_t, packet_room> packet_;
    std::array<std::uint8_t, 1024> answer_;
};

// How many bytes of the image the request at an offset carries: as many as its packet takes, or all that are left.
std::size_t chunk_at(const Bytes &image, std::size_t at)
{
    return std::min<std::size_t>(bg_most_data(packet_room, at, image.size(), BG_TAG), image.size() - at);
}

// Sends the chunk of the image at an offset; gives the offset that the controller answers.
std::size_t put(Host &host, const Bytes &image, const std::array<std::uint8_t, BG_TAG> &tag, std::size_t at)
{
    std::size_t len = chunk_at(image, at);
    return host.ask(1, 1, [&](std::uint8_t sequence, std::uint8_t *out, std::size_t room, std::uint32_t *packet_len) {
        return bg_write_upload(sequence, image.data() + at, len, at, image.size(), tag.data(), tag.size(), out, room,
                               packet_len);
    });
}

// Uploads the image; the answer at offset 0 says by the tag how far this very image is.
void upload(Host &host, const Bytes &image)
{
    std::array<std::uint8_t, BG_TAG> tag;
    sha256(image.data(), image.size(), tag.data());
    for (std::size_t at = 0; at < image.size();) {
        std::size_t wanted = at + chunk_at(image, at);
        std::size_t answered = put(host, image, tag, at);
        if (answered == 0 || answered > image.size() || (at > 0 && answered != wanted)) {
            throw std::runtime_error("the controller is at another offset: run this again");
        }
        at = answered;
    }
    if (put(host, image, tag, 0) != image.size()) {
        throw std::runtime_error("the slot is not this image's: run this again");
    }
}

} // namespace

// Does what the command line asks for, and says in one line how it ended.
int main(int argc, char **argv)
{
    try {
        if (argc != 3) {
            throw std::runtime_error("usage: host PORT FILE");
        }
        std::ifstream file(argv[2], std::ios::binary);
        Bytes image((std::istreambuf_iterator<char>(file)), std::istreambuf_iterator<char>());
        if (image.empty()) {
            throw std::runtime_error(std::string("nothing to upload in ") + argv[2]);
        }
        Port port(argv[1]);
        Host host(port);
        upload(host, image);
        host.ask(0, 5, bg_write_reset);
        std::cout << "host: done, the slot is this image's: " << image.size() << " bytes\n";
        return 0;
    } catch (const std::exception &failure) {
        std::cerr << "host: " << failure.what() << '\n';
        return 1;
    }
}
