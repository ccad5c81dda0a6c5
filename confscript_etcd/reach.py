"""Why nothing is answered at a URL: nothing listens there, what listens is silent, or a certificate is refused."""
import http.client
import socket
import ssl
import urllib.error

from .metrics import opened
from .servers import unreachable

HANGS = "takes connections and answers nothing"
# A server that has started answers its peers, and no client before it has heard from a majority.
WAITS = "has started, and waits for a majority of the voters"
# What is said of an authority that this host does not know: it may be that of the peers alone.
UNKNOWN_AUTHORITY = ("unable to get local issuer certificate", "self-signed certificate", "self signed certificate")


def why_silent(url, context, seconds):
    """Why a server answers nothing at a URL. None if it answers. Without certificates only connections are tried at https."""
    reason = unreachable(url, seconds)
    if reason or (url.startswith("https:") and context is None):
        return reason
    try:
        opened(f"{url}/version", context, seconds).close()
    except urllib.error.HTTPError:
        return None
    except (OSError, ValueError, http.client.HTTPException) as error:
        return reason_of(error.reason if isinstance(error, urllib.error.URLError) else error)
    return None


def reason_of(error):
    """The reason that an error of a connection shows."""
    if isinstance(error, ssl.SSLCertVerificationError):
        return f"its certificate is refused: {error.verify_message}"
    if isinstance(error, ssl.SSLError):
        return alert(error.reason or str(error))
    if isinstance(error, socket.timeout):
        return HANGS
    if isinstance(error, http.client.RemoteDisconnected):
        return "ends the connection; is it https?"
    return (getattr(error, "strerror", None) or str(error)).lower()


def alert(reason):
    """The reason of an error of TLS, such as SSLV3_ALERT_CERTIFICATE_EXPIRED."""
    _, is_alert, text = reason.partition("ALERT_")
    if is_alert:
        return f"it refuses the certificate of this client: {text.replace('_', ' ').lower()}"
    return "does not speak TLS; is it http?" if reason == "WRONG_VERSION_NUMBER" else reason.replace("_", " ").lower()


def why_peer_is_silent(url, context, seconds):
    """Why other servers cannot reach one at its peer URL, as far as it is seen from here: the authority of the peers may be
    another one, and they have certificates of their own."""
    reason = why_silent(url, context, seconds)
    is_unknown = reason and (reason.startswith("it refuses") or any(text in reason for text in UNKNOWN_AUTHORITY))
    return None if is_unknown else reason
