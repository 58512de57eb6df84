# SPDX-License-Identifier: MIT OR Apache-2.0
"""Those whom the front talks to: stations, the switch, and bsc. Not proved."""
