"""What a page's content security policy names its own scripts and styles by."""

import base64
import hashlib


def hash_of(text: str) -> str:
    """The source expression of an inline script or style with this text."""
    return "'sha256-%s'" % base64.b64encode(hashlib.sha256(text.encode('utf-8')).digest()).decode('ascii')
