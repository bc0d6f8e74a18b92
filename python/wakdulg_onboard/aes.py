"""AES in CBC mode (FIPS 197; NIST SP 800-38A, section 6.2), for deciphering alone, by Debian's python3-cryptography.

`openssl enc` takes a key as it is only among its words, where each user of the machine can read it. Here it stays in
this process.
"""
from wakdulg_onboard.tokens import NotThere

KEY_LENGTHS, BLOCK = (16, 24, 32), 16


def decipher_blocks(key: bytes, vector: bytes, data: bytes) -> bytes:
    """Returns the plain text of whole blocks after an initialization vector.

    # Errors
    Raises `NotThere` if this machine lacks the package.
    """
    try:
        from cryptography.hazmat.primitives.ciphers import Cipher, algorithms, modes
    except ImportError:
        raise NotThere("AES", "python3-cryptography") from None
    context = Cipher(algorithms.AES(key), modes.CBC(vector)).decryptor()
    return context.update(data) + context.finalize()


def decipher_cbc(key: bytes, data: bytes) -> bytes:
    """Returns the plain text of an initialization vector and the blocks after it, without the padding: the last byte is
    the number of bytes of it (XML Encryption, section 5.2).

    # Errors
    Raises `ValueError` if a length or that byte is wrong, and `NotThere` as `decipher_blocks` does.
    """
    if len(key) not in KEY_LENGTHS or len(data) < 2 * BLOCK or len(data) % BLOCK:
        raise ValueError("the key has %d bytes and the value %d" % (len(key), len(data)))
    plain = decipher_blocks(key, data[:BLOCK], data[BLOCK:])
    if not 1 <= plain[-1] <= BLOCK:
        raise ValueError("it has no right padding")
    return plain[:-plain[-1]]
