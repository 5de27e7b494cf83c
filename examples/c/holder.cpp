// A device and an encoder that are closed by their destructors, in C++17. The lock of the device is held shared by what records, and alone by
// all else. A buffer is made, written and cleared, a rule is broken, and what a driver has to do is told.
#include "wethlorn.h"
#include "wethlorn_rules.h"
#include <iostream>
#include <mutex>
#include <new>
#include <shared_mutex>
#include <stdexcept>

// What is recorded on it lies behind it. It is used by one thread at a time, and has a number as all objects have.
class Encoder {
public:
    Encoder() = default;
    ~Encoder() { wethlorn_close_encoder(&encoder); }
    Encoder(const Encoder &) = delete;
    Encoder &operator=(const Encoder &) = delete;

private:
    friend class Device;
    wethlorn_encoder encoder = WETHLORN_ENCODER_INIT;
};

class Device {
public:
    explicit Device(uint64_t budget) {
        wethlorn_bad_limit bad;
        check(wethlorn_open(budget, ++serials, nullptr, 0, nullptr, 0, &device, &bad));
    }
    ~Device() {
        wethlorn_left left;
        wethlorn_close(&device, &left);
    }
    Device(const Device &) = delete;
    Device &operator=(const Device &) = delete;

    wethlorn_reply createBuffer(uint64_t size, wethlorn_buffer_usage usage) {
        const wethlorn_buffer_desc desc = {size, usage, 0};
        return call([&](wethlorn_reply *out) { return wethlorn_create_buffer(&device, &desc, out); });
    }
    wethlorn_reply writeBuffer(uint64_t buffer, uint64_t offset, uint64_t size) {
        return call([&](wethlorn_reply *out) { return wethlorn_write_buffer(&device, buffer, offset, size, out); });
    }
    wethlorn_reply createEncoder(Encoder &made) {
        return call([&](wethlorn_reply *out) { return wethlorn_create_encoder(&device, &made.encoder, out); });
    }
    // A command that comes late is an event of its own, for which the lock is held alone.
    void clearBuffer(Encoder &on, uint64_t buffer) {
        const uint32_t status = record([&] { return wethlorn_clear_buffer(&device, &on.encoder, buffer, 0, WETHLORN_NONE); });
        if (status == WETHLORN_LATE)
            call([&](wethlorn_reply *out) { return wethlorn_late(&device, &on.encoder, out); });
        else
            check(status);
    }
    wethlorn_reply finish(Encoder &ended) {
        return call([&](wethlorn_reply *out) { return wethlorn_finish(&device, &ended.encoder, out); });
    }
    wethlorn_reply submit(uint64_t commands) {
        return call([&](wethlorn_reply *out) { return wethlorn_submit(&device, &commands, 1, out); });
    }
    bool nextItem(wethlorn_item &item) {
        const std::unique_lock<std::shared_mutex> alone(lock);
        return wethlorn_next_item(&device, &item) == WETHLORN_OK;
    }

private:
    template <typename Call> wethlorn_reply call(Call made) {
        const std::unique_lock<std::shared_mutex> alone(lock);
        wethlorn_reply reply = {};
        check(made(&reply));
        return reply;
    }
    template <typename Call> uint32_t record(Call made) {
        const std::shared_lock<std::shared_mutex> shared(lock);
        return made();
    }
    static void check(uint32_t status) {
        if (status == WETHLORN_NO_MEMORY)
            throw std::bad_alloc();
        if (status != WETHLORN_OK)
            throw std::invalid_argument("the call was not made");
    }
    // Each device of a process gets another number.
    static inline uint64_t serials = 0;
    std::shared_mutex lock;
    wethlorn_device device = WETHLORN_DEVICE_INIT;
};

static void tellSteps(Device &device) {
    for (wethlorn_item item; device.nextItem(item);)
        if (item.what == WETHLORN_STEP)
            std::cout << "step " << item.name << " of operation " << item.place << ", accesses " << item.accesses << "\n";
}

int main() {
    Device device(1024);
    const wethlorn_reply buffer = device.createBuffer(16, WETHLORN_BUFFER_USAGE_COPY_DST | WETHLORN_BUFFER_USAGE_VERTEX);
    const wethlorn_reply written = device.writeBuffer(buffer.number, 0, 16);
    const wethlorn_reply beyond = device.writeBuffer(buffer.number, 16, 16);
    std::cout << "buffer " << buffer.number << ", operation " << written.number << "\n";
    std::cout << "rule " << beyond.rule << ": " << wethlorn_rule_text(beyond.rule) << "\n";
    tellSteps(device);
    try {
        device.writeBuffer(buffer.number + 1, 0, 16);
    } catch (const std::invalid_argument &) {
        std::cout << "no object " << buffer.number + 1 << "\n";
    }
    Encoder encoder;
    device.createEncoder(encoder);
    device.clearBuffer(encoder, buffer.number);
    const wethlorn_reply commands = device.finish(encoder);
    std::cout << "commands " << commands.number << ", operation " << device.submit(commands.number).number << "\n";
    tellSteps(device);
}
