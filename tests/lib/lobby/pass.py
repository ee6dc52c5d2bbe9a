"""A pass, and what a user shows who has it, by Python alone: pass.py SEED ACCOUNT USER, 64 digits each. It prints the two. First it asks
what it stands on for what was published."""
import sys

sys.dont_write_bytecode = True
from passes import Key, claims_of, crc, key_text, open_of, seed_of, seed_text, signed, token_of  # noqa: E402

# The sum of nine digits, as catalogues of sums have it; RFC 8032, 7.1, the first and the third one; and NATS' documentation.
assert crc(b"123456789") == 0x31C3
PUBLISHED = [("9d61b19deffd5a60ba844af492ec2cc44449c5697b326919703bac031cae7f60",
              "d75a980182b10ab7d54bfed3c964073a0ee172f3daa62325af021a68f707511a", b"",
              "e5564300c360ac729086e2cc806e828a84877f1eb8e5d974d873e06522490155"
              "5fb8821590a33bacc61e39701cf9b46bd25bf5f0595bbe24655141438e7a100b"),
             ("c5aa8df43f9f837bedb7442f31dcb7b166d38535076f094b85ce3a2e0b4458f7",
              "fc51cd8e6218a1a38da47ed00230f0580816ed13ba3303ac5deb911548908025", b"\xaf\x82",
              "6291d657deec24024827e69c3abe01a30ce548a284743a445e3680d7db5ac3ac"
              "18ff9b538d16f290ae67f760984dc6594a7c15e9716ed28dc027beceea1ec40a")]
for seed, shown, text, signature in PUBLISHED:
    assert open_of(bytes.fromhex(seed)).hex() == shown and signed(bytes.fromhex(seed), text).hex() == signature
DOCUMENTED = "SUACSSL3UAHUDXKFSNVUZRF5UHPMWZ6BFDTJ7M6USDXIEDNPPQYYYCU3VY"
assert Key("U", seed_of(DOCUMENTED)).text == "UDXU4RCSJNZOIQHZNWXHXORDPRTGNJAHAHFRGZNEEJCPQTT2M7NLCNF4"
assert seed_text("U", seed_of(DOCUMENTED)) == DOCUMENTED

given = [bytes.fromhex(it) for it in sys.argv[1:]]
signer, account, user = Key("A", given[0]), key_text("A", given[1]), Key("U", given[2])
print(signer.seed_text + account, token_of(signer, claims_of(signer, account, user)))
