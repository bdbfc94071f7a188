"""A plan desk for multi-agent path finding: it keeps the list of conflicts of a shared plan current while it is edited."""
from .checks import Verdict, check
from .desks import Desk, Fault
from .reports import Agent, Cell, Conflict, Report, Visit

__all__ = ["Agent", "Cell", "Conflict", "Desk", "Fault", "Report", "Verdict", "Visit", "check"]
