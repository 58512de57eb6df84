# SPDX-License-Identifier: MIT OR Apache-2.0
"""What makes a service of it: settings, log, status, and the command. Not proved."""
