# SPDX-License-Identifier: MIT OR Apache-2.0
"""What examples/network is made of. Not proved."""
