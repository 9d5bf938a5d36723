'''
PMBus, stacked on I2C: the packets of power converters with their names, values and status bits, what
a device did not acknowledge, and where the traffic breaks the rules.

It takes the package pmb for Python (docs/python.md in the repository of pmb), which reads packets by
proved functions. docs/capturing.md there shows how to use this decoder.
'''

from .pd import Decoder
