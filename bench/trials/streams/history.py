"""What the backend had at each time, as far as a run knows it: every write comes from the run itself."""
from readers.effects import stored_fields
from readers.queries import read_target
from trials.messages.compare import read_time


def time_of(text):
    """Nanoseconds since 1970."""
    return read_time(text, "", None)


class History:
    """The documents of these names behind each write, and the answers of targets over them, as another reader of queries works them out."""

    def __init__(self, link, names):
        self.link, self.names = link, names
        self.states = [(0, {})]

    def record(self, commit):
        """A write was committed at that time."""
        found = self.link.documents(self.names)
        self.states.append((time_of(commit), {name: document for name, document in found.items() if document}))

    def answer(self, target, front, at):
        """The documents of the target's answer at that time, in its order. Names stand behind the front."""
        documents = next(documents for commit, documents in reversed(self.states) if commit <= time_of(at))
        fields = {name: stored_fields(document.get("fields", {})) for name, document in documents.items()}
        return [documents[name] for name in read_target(target, front).answer(fields)]
