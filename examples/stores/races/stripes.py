"""What a store keeps of its stripes beside the book: which entry placed each, whether its bytes were written, and their names.

To a book a stripe is a number. One that was dropped and placed again under its number is another stripe. The number of the entry
that placed it, its *generation*, tells them apart."""
from commands import lrc_embed


class Stripes:
    """The stripes of a store, by the entries of its log. So a replay and each replica come to the same. `rows` is what an image is
    kept with, since the entries before it are gone."""

    def __init__(self, rows=()):
        self.generations, self.written, self.epochs = {}, set(), {}
        for stripe, generation, is_written, epochs in rows:
            self.generations[stripe] = generation
            self.written |= {stripe} if is_written else set()
            self.epochs.update({(stripe, fragment): epoch for fragment, epoch in enumerate(epochs) if epoch})

    def rows(self):
        """Of each stripe its number, its generation, whether it is written, and the epoch of each fragment."""
        fragments = range(lrc_embed.FRAGMENTS)
        return [(stripe, generation, stripe in self.written, [self.epochs.get((stripe, fragment), 0) for fragment in fragments])
                for stripe, generation in sorted(self.generations.items())]

    def follow(self, number, entry):
        """Follows an entry of the log, which has this number."""
        command, kind = entry.command, entry.reply.kind
        if kind in (lrc_embed.ReplyKind.PLACED, lrc_embed.ReplyKind.PLACED6):
            self.generations[command.stripe] = number
        elif kind == lrc_embed.ReplyKind.DROPPED:
            del self.generations[command.stripe]
            self.written.discard(command.stripe)
            self.epochs = {key: epoch for key, epoch in self.epochs.items() if key[0] != command.stripe}
        elif command.kind == lrc_embed.CommandKind.REPORT and kind == lrc_embed.ReplyKind.ENDED:
            self.epochs[command.stripe, command.fragment] = command.epoch

    def follow_written(self, stripe, generation):
        """Follows a record of the store's own: all bytes of a stripe of this generation are on disks. Whether it is still there."""
        if self.generations.get(stripe) != generation:
            return False
        self.written.add(stripe)
        return True

    def unwritten(self, number):
        """The stripes that were placed by that entry or an earlier one, and are not written. If that is long ago, their writers are
        gone."""
        return sorted(stripe for stripe, it in self.generations.items() if it <= number and stripe not in self.written)

    def name(self, stripe, fragment, epoch=None):
        """The name of the bytes of a fragment: of those at its home, or of those that a worker writes under the epoch of its lease.
        No two writers ever have the same."""
        epoch = self.epochs.get((stripe, fragment), 0) if epoch is None else epoch
        return f"{stripe}.{self.generations[stripe]}.{fragment}.{epoch}"
