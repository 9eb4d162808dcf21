"""Has the memory of a call: a message and secrets, which are only read, a stack, perhaps a stream, and the constants of
the file. Each has an address of which nothing is known but that they do not overlap."""

from linear import Refusal, add, apart, bounds, linear, make, parts
from terms import byte, join, message, split


class Memory:
    depth = 1 << 16  # the bytes of stack that a function may use
    argument_room = 0  # the bytes above the return address that a function may use
    limit = 0  # up to this length, messages are run to the end even if they reach the loop

    def clear(self, length, sizes):
        """Begins a call with a message of `length` bytes, and with so many bytes of `secrets` and `stream`."""
        self.length, self.sizes, self.memory = length, sizes, {}

    def locate(self, address, size, is_write=False):
        """Returns the region of an address, and the place in it. Refuses bytes that the call may not use."""
        constant, factors = parts(address) or (0, {"contents": 1})
        regions = [text for text in factors if text not in ("turns", "done")]
        region = regions[0] if regions else "contents"
        if len(regions) > 1 or factors.pop(region, 1) != 1 or region == "contents":
            raise Refusal(f"an address depends on contents: {address}")
        place = linear(constant, factors)
        if not self.fits(region, place, size, is_write):
            raise Refusal(f"{'a write' if is_write else 'a read'} of {size} bytes at {region} + "
                          f"{place if factors else constant}")
        return region, place if region == "message" else constant

    def fits(self, region, place, size, is_write):
        """Returns whether a call may use these bytes of a region. It may read its return address."""
        low, high = bounds(place)
        if region == "message":
            return not is_write and low >= 0 and apart(self.length, add(place, size))[0] >= 0
        if region == "stack" and low == high:
            return high + size <= 8 * (not is_write) or 8 <= low and high + size <= 8 + self.argument_room
        if region.startswith("section"):
            return low == high and not is_write
        return 0 <= low == high <= self.sizes.get(region, 0) - size and (region == "stream" or not is_write)

    def load_bytes(self, address, size):
        region, place = self.locate(address, size)
        return split(message(place, size), size) if region == "message" else [
            self.stored(region, place + index) for index in range(size)]

    def stored(self, region, place):
        found = self.file.constant(region, place) if region.startswith("section") else self.memory.get((region, place))
        if found is None and region != "secrets":
            raise Refusal(f"a read of what was not written, at {region} + {place}")
        return byte(make("secret", 64, place // 8), place % 8) if found is None else found

    def load(self, address, size):
        return join(self.load_bytes(address, size))

    def store_bytes(self, address, these):
        region, place = self.locate(address, len(these), True)
        self.memory.update({(region, place + index): one for index, one in enumerate(these)})
