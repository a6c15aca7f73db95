"""Every prefix of a text, and every byte in the place of a token's byte of each kind, for each kind of text."""
import random
import re

from seeds import BRANCHED, BY_NAME, CERTIFIED, INDEXED, KINDS, OPEN, OWN_WORDS, TABLES, TOKENS

TOKEN = re.compile(rb"#[^\n]*|[A-Za-z_][A-Za-z_0-9]*|\d+|[<>]=|.", re.DOTALL)
KEYWORDS = (b"uncertain set budget var adaptive minimise minimize maximise maximize row in at by over "
            b"model sum for to").split()


def model_kinds(text):
    """For each byte of a model's text the kind of its token, and whether it is the token's first."""
    kinds = []
    for token in TOKEN.findall(text):
        known = token in KEYWORDS or not re.match(rb"[A-Za-z_0-9#]", token)
        kind = token if known else bytes([0x61 if token[:1].isalpha() or token[:1] == b"_" else token[0] & 0xF0])
        kinds += [(kind, min(at, 1)) for at in range(len(token))]
    return kinds


def line_kinds(text):
    """For each byte of a certificate or a tree its line's first word, its word's number and its class."""
    kinds = []
    for line in text.splitlines(keepends=True):
        word = 0
        for byte in line:
            kinds.append((line.split()[0], word, byte_class(byte)))
            word += byte == 32
    return kinds


def plain_kinds(text):
    """For each byte its class, and that of the byte in front of it."""
    classes = [byte_class(byte) for byte in text]
    return list(zip(classes, [None, *classes]))


def byte_class(byte):
    if 65 <= byte < 91 or 97 <= byte < 123 or byte == 95:
        return "letter"
    if 48 <= byte < 58:
        return "digit"
    return byte


def wrong_bytes(text, kinds, seen, bytes_of=range(256)):
    """The text with each byte in the place of the first byte of each kind that wasn't seen."""
    for at, kind in enumerate(kinds):
        if kind not in seen:
            seen.add(kind)
            for byte in bytes_of:
                yield text[:at] + bytes([byte]) + text[at + 1:]


def prefixes(text):
    return (text[:length] for length in range(len(text)))


def model_words(number):
    """The commands that read a model, in turn."""
    calls = ("solve m.rob", "rows m.rob", "prove m.rob --route=cuts", "cells m.rob d=10", "whole m.rob x",
             "sweep m.rob 1 0,1", "narrow m.rob --bits=16", "celltext m.rob d=9", "tree m.rob x",
             "sweeptext m.rob 3 1/2")
    return calls[number % len(calls)].split()


def of_models(tries, follower):
    seen, number = set(), 0
    for text in (*TOKENS, BY_NAME["one"].text, BY_NAME["storm"].text, BY_NAME["weeks"].text, BY_NAME["rounds"].text):
        for one in (*prefixes(text), *wrong_bytes(text, model_kinds(text), seen)):
            number += 1
            follower.after(tries.run("byte of a model", model_words(number), {"m.rob": one}))


def of_indices(tries, follower):
    """Each kind of token in the place of each token, and in front of it."""
    for text in INDEXED:
        tokens = [token for token in TOKEN.finditer(text) if token[0] != b" "]
        for token in tokens:
            for kind in KINDS:
                for behind in (token.start(), token.end()):
                    one = text[:token.start()] + b" " + kind + b" " + text[behind:]
                    follower.after(tries.run("token of an index", ["rows", "m.rob"], {"m.rob": one}))


def of_certificates(tries, follower):
    seen = set()
    for name in CERTIFIED:
        model = BY_NAME[name]
        whole = tries.run("model", ["prove", "m.rob"], {"m.rob": model.text}).out
        for one in (*prefixes(whole), *wrong_bytes(whole, line_kinds(whole), seen)):
            files = {"m.rob": model.text, "c.cert": one}
            follower.after(tries.run("byte of a certificate", ["check", "m.rob", "c.cert"], files))


def of_tables(tries, follower):
    model = BY_NAME["limits"]
    proof = tries.run("model", ["prove", "m.rob"], {"m.rob": model.text}).out
    seen = set()
    for text in (*TABLES, model.scenarios):
        for one in (*prefixes(text), *wrong_bytes(text, plain_kinds(text), seen)):
            files = {"m.rob": model.text, "c.cert": proof, "s.csv": one}
            tries.run("byte of a scenario file", ["replay", "m.rob", "c.cert", "s.csv"], files)


def of_trees(tries, follower):
    seen = set()
    for name in (*BRANCHED, OPEN):
        model = BY_NAME["runaway" if name is OPEN else name]
        printed = tries.run("model", ["tree", "m.rob", model.names], {"m.rob": model.text}).out
        tree = OPEN if name is OPEN else printed
        for one in (*prefixes(tree), *wrong_bytes(tree, line_kinds(tree), seen)):
            files = {"m.rob": model.text, "t.tree": one}
            follower.after(tries.run("byte of a tree", ["checktree", "m.rob", model.names, "t.tree"], files))


def of_words(tries, follower):
    """Each word that names no file. A word can't hold a byte 0."""
    model = BY_NAME["limits"]
    proof = tries.run("model", ["prove", "m.rob"], {"m.rob": model.text}).out
    files = {"m.rob": model.text, "c.cert": proof, "t.tree": b"tree infeasible\n"}
    for words in OWN_WORDS:
        for at, word in enumerate(words):
            text = word.encode()
            if word in files:
                continue
            for one in (*prefixes(text), *wrong_bytes(text, plain_kinds(text), set(), range(1, 256))):
                wrong = one.decode("utf-8", "surrogateescape")
                tries.run("byte of a word", [*words[:at], wrong, *words[at + 1:]], files)


EVERY = (of_models, of_indices, of_certificates, of_tables, of_trees, of_words)
