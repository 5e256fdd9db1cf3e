"""What stops a run: a fact, and what its reader can do next."""


class Fault(Exception):
    """`advice` is one sentence, or empty; `outcome` says what the run leaves behind."""

    def __init__(self, fact: str, advice: str = "", outcome: str = "nothing was written") -> None:
        super().__init__(fact)
        self.fact = fact
        self.advice = advice
        self.outcome = outcome

    def lines(self) -> list[str]:
        """What is told."""
        return [self.fact, f"{self.outcome}; {self.advice}" if self.advice else self.outcome]
