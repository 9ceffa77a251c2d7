<?php
function f() {
g();
}
F();
