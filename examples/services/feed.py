"""Fan-out: what somebody posts comes to each follower by one request, through a tree of relays that the silo has.

    python3 feed.py unix:/tmp/feed/feed.sock follow bob ann
    python3 feed.py unix:/tmp/feed/feed.sock post ann "hello"
    python3 feed.py unix:/tmp/feed/feed.sock read bob
    python3 feed.py unix:/tmp/feed/feed.sock leave bob ann
"""

from __future__ import annotations

import sys
from typing import Any, List

from silo import Client, Counter, Relay, Sheet, Silo

# a relay has at most 4 members; each follower is a leaf of a tree of this depth, and 256 make it full
MEMBERS, DEPTH = 4, 4
FOLLOWERS = MEMBERS**DEPTH
# how many posts of each author a timeline keeps
KEPT = 20


class Timeline(Sheet):
    prefix = "timeline/"


class Branch(Relay):
    prefix = "branch/"


class Followers(Sheet):
    """Which leaf each follower of an author is: no method lists a relay's members."""

    prefix = "followers/"


class Leaves(Counter):
    """How many leaves were given away of an author."""

    prefix = "leaves/"


class Posts(Counter):
    prefix = "posts/"


class Feed:
    def __init__(self, web: Client) -> None:
        self._web = web

    def follow(self, user: str, author: str) -> str:
        followers = Followers(self._web, author)
        leaf = followers.get(user)
        if leaf is None:
            leaf = Leaves(self._web, author).add(by=1) - 1
            Leaves(self._web, author).save()
            followers.put(user, leaf)
            followers.save()
        # again each time, since one that follows may have ended before: who is a member stays one
        member = f"sheet/{self._web.tenant}:{Timeline.prefix}{user}"
        for name in reversed(path_of(author, leaf)):
            branch = Branch(self._web, name)
            branch.join(member)
            branch.save()
            member = f"relay/{self._web.tenant}:{Branch.prefix}{name}"
        return f"{user} follows {author}"

    def leave(self, user: str, author: str) -> str:
        """Its leaf stays empty."""
        followers = Followers(self._web, author)
        leaf = followers.get(user)
        if leaf is None:
            return f"{user} doesn't follow {author}"
        branch = Branch(self._web, path_of(author, leaf)[-1])
        branch.leave(f"sheet/{self._web.tenant}:{Timeline.prefix}{user}")
        branch.save()
        followers.drop(user)
        followers.save()
        return f"{user} doesn't follow {author} any more"

    def post(self, author: str, text: str) -> str:
        posts, leaves = Posts(self._web, author), Leaves(self._web, author).get()
        number = posts.add(by=1)
        posts.save()
        # an older post of the same author goes by that
        entry = {"name": f"{author}/{number % KEPT:02}", "value": {"by": author, "number": number, "text": text}}
        for tree in range(-(-leaves // FOLLOWERS)):
            top = Branch(self._web, f"{author}/{tree}")
            # a message for each branch below the top, and in it the one for timelines
            for method, args in (("put", entry), ("save", None)):
                method, args = through_branches(method, args)
                top.send(method, args)
        return f"{number}"

    def read(self, user: str) -> str:
        timeline = Timeline(self._web, user)
        posts = [timeline.get(name) for name in timeline.list()]
        return "\n".join(f"{it['by']} {it['number']}: {it['text']}" for it in posts if it is not None)


def path_of(author: str, leaf: int) -> List[str]:
    """The branches that lead to a leaf, from the top of its tree on."""
    tree, place = divmod(leaf, FOLLOWERS)
    names = [f"{author}/{tree}"]
    for level in range(DEPTH - 1, 0, -1):
        names.append(f"{names[-1]}.{place // MEMBERS**level % MEMBERS}")
    return names


def through_branches(method: str, args: Any) -> Any:
    """The message that a top has to send, so that timelines get this one."""
    for _ in range(DEPTH - 1):
        method, args = "send", {"method": method, "args": args}
    return method, args


def main(gateway: str, method: str, *words: str) -> None:
    with Silo.connect(gateway) as silo:
        feed = Feed(silo.client("feed/web"))
        print({"follow": feed.follow, "leave": feed.leave, "post": feed.post, "read": feed.read}[method](*words))


if __name__ == "__main__":
    if len(sys.argv) < 4 or sys.argv[2:3] not in (["follow"], ["leave"], ["post"], ["read"]) or len(sys.argv) != (4 if sys.argv[2] == "read" else 5):
        sys.exit("usage: feed.py unix:PATH follow USER AUTHOR | leave USER AUTHOR | post AUTHOR TEXT | read USER")
    main(*sys.argv[1:])
