<?php

function greet() {
    say();
    Log_line();
}

greet();
farewell();
