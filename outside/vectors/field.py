"""Products, inverses and powers in the two fields, computed from the definition alone: polynomials as integers, schoolbook product,
reduction by long division, the inverse by Fermat's little theorem. Prints the tables that crates/arithmetic_tests holds."""
import random

KINDS = {"short": (64, (1 << 64) | 0b11011), "wide": (128, (1 << 128) | 0b10000111)}


def times(a, b):
    """The product of two polynomials, with no reduction."""
    total = 0
    for i in range(b.bit_length()):
        if b >> i & 1:
            total ^= a << i
    return total


def rest(a, modulus):
    """What a leaves when it is divided by the modulus."""
    while a.bit_length() >= modulus.bit_length():
        a ^= modulus << (a.bit_length() - modulus.bit_length())
    return a


def product(a, b, modulus):
    return rest(times(a, b), modulus)


def power(a, k, modulus):
    total = 1
    for bit in bin(k)[2:]:
        total = product(total, total, modulus)
        if bit == "1":
            total = product(total, a, modulus)
    return total


def elements(n, pick):
    ones = (1 << n) - 1
    fixed = [0, 1, 2, 1 << (n - 1), ones, ones ^ 1]
    return fixed + [pick.getrandbits(n) for _ in range(6)]


def number(v, n):
    """An element's number, with all the digits of its kind."""
    return f"0x{v:0{n // 4}x}"


def main():
    pick = random.Random(20260101)
    for name, (n, modulus) in KINDS.items():
        some = elements(n, pick)
        print(f"// {name}: a, b, a b")
        for a, b in zip(some, some[::-1]):
            print(f"    [{number(a, n)}, {number(b, n)}, {number(product(a, b, modulus), n)}],")
        print(f"// {name}: a, its inverse")
        for a in some[1:]:
            inverse = power(a, (1 << n) - 2, modulus)
            assert product(a, inverse, modulus) == 1
            print(f"    [{number(a, n)}, {number(inverse, n)}],")
        print(f"// {name}: k, x^k")
        for k in (0, 1, n - 1, n, n + 1, 2 * n, 200, 255):
            print(f"    ({k}, {number(power(2, k, modulus), n)}),")


if __name__ == "__main__":
    main()
