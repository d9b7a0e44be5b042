"""The storm: both programs run over a network that loses, delays, repeats and garbles, and they are killed and paused.

Instances and bindings are ordered and removed by the commands of osb-platform, which are killed too. Each record that
is `ready` or `gone` is compared with the row of the broker and with what exists, and the credentials of each binding
are tried. At the end records, rows, resources and credentials are counted.
"""
