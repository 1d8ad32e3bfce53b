"""The formats of rules that are read, by name: the module, and the ending of the files that are taken from a folder."""
from . import fail2ban, logcheck, modsecurity, snort, spamassassin

FORMATS = {
    "spamassassin": (spamassassin, ".cf"),
    "snort": (snort, ".rules"),
    "suricata": (snort, ".rules"),
    "fail2ban": (fail2ban, ".conf"),
    "logcheck": (logcheck, ""),
    "modsecurity": (modsecurity, ".conf"),
}
