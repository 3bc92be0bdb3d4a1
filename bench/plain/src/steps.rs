//! Makes the calls in the order of the schedule.

use crate::program::Program;
use crate::rounds::Rounds;
use crate::site::Site;

/// The report of a run by the schedule.
pub fn steps(program: &Program) -> Vec<u8> {
    let mut rounds = Rounds::new(program);
    let mut sites: Vec<Site> = (0..program.workload.sites).map(|site| Site::new(site, program.workload.objects.len())).collect();
    let mut made = vec![0; program.workload.clients.len()];
    for &client in &program.workload.schedule {
        let position = made[client as usize];
        made[client as usize] += 1;
        let site = &mut sites[program.workload.clients[client as usize].site as usize];
        if let Err(finding) = site.make(program, &rounds.plan, client, position) {
            rounds.close(program, sites.iter_mut(), (client, position), &finding);
        }
    }
    rounds.finish(program, sites.iter_mut())
}
