"""Random cases: programs, configurations, directives, logs, reports and words, each from a seed."""
