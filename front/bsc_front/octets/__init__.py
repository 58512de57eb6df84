# SPDX-License-Identifier: MIT OR Apache-2.0
"""Octets alone: what is said and what was said, without any waiting. Not proved."""
