"""What one run of a script does, by what is built."""

from typing import Optional

import disk
import lasting
import model


def outcome(
    words: list, script: bytes, before: Optional[bytes] = None, opens: bool = True, built: model.Built = model.BUILT
) -> model.Outcome:
    """One run over a file that has these bytes, or over none."""
    if not built.lasts:
        return model.run(words, script, opens, built)
    image = None if before is None else disk.Image.of(before)
    ran = lasting.run(words, script, image, opens, built)
    left_alone = not ran.calls or ran.status == 6
    length = None if left_alone else model.PAGE * ran.image.count
    return model.Outcome(ran.text, ran.status, ran.errors, length, {} if left_alone else ran.image.pages, ran.said)
