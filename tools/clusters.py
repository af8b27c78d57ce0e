"""Clusters, which list the names of other artifacts: who pulls asks for these, and not for each name.

A server makes one at a pull where more than 100 public names stand in none. Those that are made here spare the first client a list of all
names."""
from artifacts import Card, cards_of, kind_of, text_of
from moving import name_of

# as Fossil makes them: none for so few names, and none of more
FEW, MOST = 100, 800


def members_of(content: bytes) -> set[str]:
    """The names that a cluster lists; none where it is no cluster."""
    cards = cards_of(content) if content.startswith(b'M ') else []
    return {word.decode('latin-1') for card in cards for word in card.words} if kind_of(cards) == 'cluster' else set()


def cluster_of(names: list[str]) -> bytes:
    """A cluster of names, which rise."""
    return text_of([Card('M', [name.encode()]) for name in names])


def clusters_for(names: set[str]) -> list[bytes]:
    """Clusters of names that stand in none, and clusters of these, until few names are left that stand in none."""
    made: list[bytes] = []
    while len(names) > FEW:
        rising = sorted(names)
        count = -(-len(rising) // MOST)
        cut = [len(rising) * number // count for number in range(count + 1)]
        clusters = [cluster_of(rising[begin:end]) for begin, end in zip(cut, cut[1:])]
        made += clusters
        names = {name_of(cluster) for cluster in clusters}
    return made
