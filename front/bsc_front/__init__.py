# SPDX-License-Identifier: MIT OR Apache-2.0
"""Joins bsc, a GSM BSC relay, to base stations and to a switch. Not proved."""

__version__ = "0.1.0"
