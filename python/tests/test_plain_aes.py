"""The AES of the independent oracle without a library, by published vectors."""
import unittest

import plain_aes


class PlainAes(unittest.TestCase):
    """The examples of FIPS 197 appendix C."""

    TEXT = bytes.fromhex("00112233445566778899aabbccddeeff")
    WORKED = {16: "69c4e0d86a7b0430d8cdb78070b4c55a", 32: "8ea2b7ca516745bfeafc49904b496089"}

    def test_both_directions(self):
        for size, cipher in self.WORKED.items():
            keys = plain_aes.round_keys(bytes(range(size)))
            self.assertEqual(plain_aes.encrypted(keys, self.TEXT).hex(), cipher)
            self.assertEqual(plain_aes.decrypted(keys, bytes.fromhex(cipher)), self.TEXT)
