#!/usr/bin/env python3
"""A Modbus server of pymodbus with the register map of one inverter, for `exporter commission` to commission.

Usage: device.py PORT UNIT. It serves until it is ended.
"""
import sys

from pymodbus.datastore import ModbusServerContext, ModbusSlaveContext, ModbusSparseDataBlock
from pymodbus.server import StartTcpServer

BASE = 40000

# Each model: its identifier, its length, and the points that aren't 0, by their offsets from the identifier.
MODELS = [
    (1, 66, {}),
    (701, 153, {}),
    (702, 50, {26: 6000}),
    (703, 17, {2: 1}),
    (704, 65, {14: 1, 15: 100, 16: 100, 17: 1, 19: 60, 54: 0xFFFF}),
]


def register_map():
    """The registers from 40000 on: the mark, the models, and the end of their chain."""
    registers = [0x5375, 0x6E53]
    for identifier, length, points in MODELS:
        model = [identifier, length] + [0] * length
        for offset, value in points.items():
            model[offset] = value
        registers += model
    return registers + [0xFFFF, 0]


def main():
    port, unit = int(sys.argv[1]), int(sys.argv[2])
    block = ModbusSparseDataBlock({BASE: register_map()})
    slave = ModbusSlaveContext(hr=block, zero_mode=True)
    StartTcpServer(context=ModbusServerContext(slaves={unit: slave}, single=False), address=("127.0.0.1", port))


main()
