"""Small batches of two lanes: two seals of one context; an opening of several messages and two of one, of
which either may come first; both on contexts of their own in version 2."""

SHARE = "share {} 32 1 1 fe0e18c9f024ce43799ae393c7e8fe8fce9d218875e8227b0187c04e7d2ea1fc base 4f6465206f6e2061204772656369616e2055726e - - {}"
TEXT = "4265617574792069732074727574682c20747275746820626561757479"
# The first two messages of RFC 9180, A.1.1.1.
MESSAGES = [
    "436f756e742d30 f938558b5d72f1a23810b4be2ab4f84331acc02fc97babc53a52ae8218a355a96d8770ac83d07bea87e13c512a",
    "436f756e742d31 af2d7e9ac9ae7e270f46ba1f975be53c09f8d875bdc8535458c2494e8a6eab251c03d0c22a56b8ca42c2063b84",
]
LINES = {
    "seals": ["hpkebatch 1", SHARE.format("send", 2), "lane", f"seal 0 31 {TEXT}", "lane", f"seal 0 30 {TEXT}"],
    "openings": [
        "hpkebatch 1", SHARE.format("recv", 9),
        "lane", f"unsealall 0 {MESSAGES[1]} {MESSAGES[0]}", "lane", f"unseal 0 {MESSAGES[0]}", f"unseal 0 {MESSAGES[1]}",
    ],
    "stamps": [
        "hpkebatch 2", SHARE.format("send", 1), SHARE.format("recv", 9),
        "lane", f"seal 0 - {TEXT}", f"unsealall 1 {MESSAGES[0]} {MESSAGES[1]}", "lane", f"seal 0 - {TEXT}", f"unseal 1 {MESSAGES[0]}",
    ],
}

BATCHES = {name: "".join(f"{line}\n" for line in [*lines, "end"]).encode() for name, lines in LINES.items()}
