// The header from C++: a slave whose memory and handle are one object, which can't be copied.
#include <gatepast.h>
#include <cstdio>

namespace {

class Slave {
public:
    explicit Slave(const gp_slave_settings &settings) : handle_ GP_SLAVE_IN(&memory_), out_(), did_() {
        good_ = gp_slave_init(&handle_, &settings, 0) == GP_OK;
    }
    ~Slave() { gp_slave_end(&handle_); } // answers that there was none, where there was none
    Slave(const Slave &) = delete;
    Slave &operator=(const Slave &) = delete;

    bool good() const { return good_; }

    // The frame to send, null where none is.
    const gp_frame *deliver(const uint8_t *frame, size_t len) {
        good_ = good_ && gp_slave_deliver(&handle_, frame, len, &out_, &did_) == GP_OK;
        return good_ && out_.len != 0 ? &out_ : nullptr;
    }

    uint8_t state() {
        uint8_t state = GP_RESET;
        good_ = good_ && gp_slave_state(&handle_, &state) == GP_OK;
        return state;
    }

private:
    gp_slave_memory memory_;
    gp_slave handle_;
    gp_frame out_;
    gp_did did_;
    bool good_;
};

const uint8_t frames[][7] = {
    {0x2A, 0x00, 0x00, 0xC4, 0x2D, 0x00, 0x00}, {0x4E, 0x01, 0x00, 0x12, 0x3E, 0x00, 0x00},
    {0x64, 0x01, 0x00, 0x64, 0x2A, 0x01, 0x00}, {0x64, 0x02, 0x00, 0x62, 0x5F, 0x01, 0x00},
    {0x52, 0x02, 0x00, 0xEE, 0x74, 0x01, 0x00}, {0x52, 0x64, 0x00, 0x58, 0xDA, 0x01, 0x00},
    {0x52, 0x00, 0x00, 0x71, 0x99, 0x01, 0x00}, {0x36, 0x01, 0x00, 0xFC, 0x43, 0x01, 0x00},
};

} // namespace

int main() {
    gp_slave_settings settings = gp_slave_settings();
    settings.master_len = settings.slave_len = 2;
    settings.address = 2;
    settings.hand = 200;
    settings.most = 1000;
    settings.profile = 1;
    settings.nonce = 2;
    Slave slave(settings);
    for (const auto &frame : frames) {
        const gp_frame *out = slave.deliver(frame, sizeof frame);
        std::printf("state %d sends %zu bytes\n", slave.state(), out == nullptr ? 0 : out->len);
    }
    return slave.good() && slave.state() == GP_DATA ? 0 : 1;
}
