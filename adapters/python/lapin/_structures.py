"""The structures of `lapin.h`, field by field."""
import ctypes


class _Handle(ctypes.Structure):
    _fields_ = [("at", ctypes.c_void_p), ("is_open", ctypes.c_bool)]


class _Opening(ctypes.Structure):
    _fields_ = [("stage", ctypes.c_uint32), ("frame_max", ctypes.c_uint32), ("channel_max", ctypes.c_uint16), ("heartbeat", ctypes.c_uint16),
                ("mechanism", ctypes.c_uint32)]


class _Place(ctypes.Structure):
    _fields_ = [("at", ctypes.c_size_t), ("count", ctypes.c_size_t)]


class _Clock(ctypes.Structure):
    _fields_ = [("sent", ctypes.c_uint64), ("heard", ctypes.c_uint64), ("seconds", ctypes.c_uint16)]


class _Message(ctypes.Structure):
    _fields_ = [("delivery_tag", ctypes.c_uint64), ("acker", ctypes.c_uint64), ("exchange", ctypes.c_size_t), ("routing_key", ctypes.c_size_t),
                ("properties", ctypes.c_size_t), ("body", ctypes.c_size_t), ("redelivered", ctypes.c_bool)]


class _Fields(ctypes.Structure):
    _fields_ = [("number", ctypes.c_uint64), ("kind", ctypes.c_uint32), ("messages", ctypes.c_uint32), ("consumers", ctypes.c_uint32),
                ("message", _Message)]


class _Return(ctypes.Structure):
    _fields_ = [("code", ctypes.c_uint16), ("text", ctypes.c_size_t), ("message", _Message)]


class _Refusal(ctypes.Structure):
    _fields_ = [("kind", ctypes.c_uint32), ("state", ctypes.c_uint32), ("code", ctypes.c_uint16), ("class_id", ctypes.c_uint16),
                ("method_id", ctypes.c_uint16), ("tag", ctypes.c_uint64), ("current", ctypes.c_uint64), ("limit", ctypes.c_uint64)]


class _States(ctypes.Structure):
    _fields_ = [("connection", ctypes.c_uint32), ("channel", ctypes.c_uint32)]


class _Reason(ctypes.Structure):
    _fields_ = [("code", ctypes.c_uint16), ("class_id", ctypes.c_uint16), ("method_id", ctypes.c_uint16)]
