#!/bin/bash
# Writes a unit file and starts the service.
set -eu

name=${1:-orbit} port=8080

unit() {
    cat <<UNIT
Description=$name on port ${port}
ExecStart=/usr/bin/$name --port $port
UNIT
}
for host in alpha beta; do
    echo "to $host: $(unit | wc -l) lines"
    unit | ssh "$host" 'cat > /etc/systemd/system/orbit.service'
done
cat <<'EOT' > notes.txt
Nothing is expanded here: $name stays $name.
EOT
