"""Why each fault of a report was made: which condition of its rule failed, on what, by which values, and what to do.

A report has the number of the rule alone. Here the script is played once more by the second reading (model/), in the order of the
report; where it finds the same rule, the function of that rule (`making.RULES`) looks at what is known at that entry. Nothing of this is
proved, and where the two readings differ no cause is told.
"""

from . import (  # noqa: F401
    attachments,
    brackets,
    buffers,
    bundles,
    copies,
    derived,
    draws,
    fixed_function,
    groups,
    layouts,
    maps,
    pipelines,
    queries,
    queue_calls,
    scopes,
    settings,
    textures,
    viewports,
    views,
)
from .cases import Causes, of_report  # noqa: F401
from .making import RULES  # noqa: F401
