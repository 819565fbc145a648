"""The words of ``python -m product_mix``, each a module of its own."""
