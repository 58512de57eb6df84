# SPDX-License-Identifier: MIT OR Apache-2.0
"""The state of channels and of connections, by the messages that pass. Not proved."""
