"""Makes scripts of a kept administration from a seed: a configuration, then commands, decisions, and lines that open it again."""

import admin_maker


class KeptMaker(admin_maker.NowMaker):
    def command(self):
        return b"reopen" if self.maybe(.04) else super().command()

    def bad_line(self):
        words = [b"refresh", b" reopen", b"reopen ", b"reopen now", b"Reopen", admin_maker.line("grant", "root", "{}"), admin_maker.line("facts", "{}")]
        return self.pick(words) if self.maybe(.5) else super().bad_line()
