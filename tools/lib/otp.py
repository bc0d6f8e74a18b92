"""One-time passwords of RFC 4226, as the scripts of tools/, bench/ and examples/ compute them."""
import hashlib
import hmac

# The key of the examples of RFC 4226 and RFC 6238.
RFC_KEY = b"12345678901234567890"


def code(key, factor, digits=6, digest=hashlib.sha1):
    """Returns the code of a counter or a time step under the key (section 5.3)."""
    mac = hmac.digest(key, factor.to_bytes(8, "big"), digest)
    at = mac[-1] & 15
    number = int.from_bytes(mac[at:at + 4], "big") & 0x7FFFFFFF
    return str(number % 10 ** digits).zfill(digits)


def rfc_code(factor):
    """Returns the six digits of a counter or a time step under the key of the examples."""
    return code(RFC_KEY, factor)
