"""The closed loop of loop.c from Python, by ctypes. The words are the path of libmpc.so and that of cart.json."""
import ctypes
import sys

DONE, TOO_SMALL = 0, 32
SAMPLES, SHOWN = 200, 20

# The grid of cart.json.
LOW, STEP = (-5.0, -2.0), 1 / 1024
# A count above each limit.
NOWHERE = 2**64 - 1

Words = ctypes.POINTER(ctypes.c_uint64)


class Fraction(ctypes.Structure):
    _fields_ = [(name, ctypes.c_uint64) for name in ("num_low", "num_high", "den_low", "den_high")]

    def value(self):
        num = self.num_low + (self.num_high << 64)
        return (num - (num >> 127 << 128)) / (self.den_low + (self.den_high << 64))


def opened(path):
    """The library, with the types of the calls that are made here."""
    mpc = ctypes.CDLL(path)
    size, number, text = ctypes.c_size_t, ctypes.c_uint32, ctypes.c_char_p
    mpc.mpc_compile.argtypes = [text, size, number, ctypes.c_char_p, size, Words]
    mpc.mpc_table_size.argtypes = [text, size, Words]
    mpc.mpc_table_load.argtypes = [text, size, number, Words, size, Words]
    mpc.mpc_reply.argtypes = [Words, size, Words, size, ctypes.POINTER(Fraction), size]
    for call in (mpc.mpc_compile, mpc.mpc_table_size, mpc.mpc_table_load, mpc.mpc_reply):
        call.restype = number
    return mpc


def hold(call, answer):
    if answer != DONE:
        sys.exit(f"loop: {call}: {answer}")


def compiled(mpc, plant):
    """The file of the plant's controller."""
    size = ctypes.c_uint64(1 << 10)
    while True:
        file = ctypes.create_string_buffer(size.value)
        answer = mpc.mpc_compile(plant, len(plant), 1, file, len(file), size)
        if answer != TOO_SMALL:
            hold("mpc_compile", answer)
            return file.raw[:size.value]


def loaded(mpc, file):
    """The table of a controller's file, which is checked on the way."""
    words = ctypes.c_uint64()
    hold("mpc_table_size", mpc.mpc_table_size(file, len(file), words))
    block = (ctypes.c_uint64 * words.value)()
    hold("mpc_table_load", mpc.mpc_table_load(file, len(file), 1, block, len(block), words))
    return block


def nearest(measured, low):
    """The count of the grid's value that is nearest to a measured one, or one above each limit."""
    steps = (measured - low) / STEP + 0.5
    return int(steps) if 0 <= steps < 1e18 else NOWHERE


def force_at(mpc, block, position, speed):
    counts = (ctypes.c_uint64 * 2)(nearest(position, LOW[0]), nearest(speed, LOW[1]))
    force = Fraction()
    hold("mpc_reply", mpc.mpc_reply(block, len(block), counts, 2, force, 1))
    return force.value()


def main(library, path):
    mpc = opened(library)
    with open(path, "rb") as file:
        block = loaded(mpc, compiled(mpc, file.read()))
    position, speed = -3.0, -1.0
    print("sample  position  speed    force")
    for sample in range(SAMPLES + 1):
        force = force_at(mpc, block, position, speed)
        if sample % SHOWN == 0:
            print(f"{sample:6}  {position:8.4f}  {speed:7.4f}  {force:7.4f}")
        position += 0.25 * speed
        speed = 0.95 * speed + 0.25 * force


if __name__ == "__main__":
    main(*sys.argv[1:])
