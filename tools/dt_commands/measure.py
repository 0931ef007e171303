"""Measures guest programs: workers, samples in C, operations of the C library, what a quantum does, the debugger, a minimal interpreter in C,
and where the time goes. And proofs, which functions take long, and how long a start takes.
"""

PARTS = {
    "workers": "measure_workers", "c-samples": "measure_c_samples", "debugger": "measure_debugger", "library": "measure_library",
    "quantum": "measure_quantum", "real-quantum": "measure_real_quantum", "yardstick": "measure_yardstick", "where": "measure_where",
    "parts": "bench", "proofs": "measure_proofs", "rust": "measure_rust", "start": "measure_start",
}
